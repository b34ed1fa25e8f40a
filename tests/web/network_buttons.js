// The script after each line that can be added, and each input, for mote 2.
for (const option of [...byId("line-kind").options]) {
  byId("line-kind").value = option.value;
  await click("add-line");
}
byId("to-mote").value = 2;
for (const button of document.querySelectorAll("[data-to=network] [data-input]")) {
  button.click();
  await idle();
}
return editors.network.text;
