// The cells of each row, and what is said of lines that are chosen by the mouse and by keys.
const rows = [...document.querySelectorAll("#lines tr[data-row]")].map((row) => [...row.cells].map((cell) => cell.textContent));
const said = [], look = () => said.push(byId("line-about").textContent);
document.querySelector("#lines tr[data-row='0']").click();
look();
byId("lines").focus();
for (const key of ["ArrowDown", "ArrowDown", "ArrowDown", "End", "Home"]) {
  byId("lines").dispatchEvent(new KeyboardEvent("keydown", { key, bubbles: true, cancelable: true }));
  look();
}
return { rows, said };
