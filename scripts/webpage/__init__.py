"""Makes the page with the proved mote: compiles modules of proved builds for WebAssembly (``modules``), and puts them into one file of
HTML with web/ and CodeMirror (``page``), and with the licences of what is in it (``licences``). docs/page.md says what of it is proved.
"""
