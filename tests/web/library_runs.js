// The answers of the library to cases, and the transcripts in base64.
const library = new Library((await compile()).library);
return CASES.map(({ configuration, applications, script }) => {
  const { name, transcript, ...answer } = library.run(configuration, applications, bytesOfBase64(script));
  let letters = "";
  for (const byte of transcript ?? []) letters += String.fromCharCode(byte);
  return { ...answer, length: transcript ? transcript.length : 0, transcript: btoa(letters) };
});
