// File inputs on which files can be dropped too. What is dropped beside them is not opened by the browser.

const HOLDS_FILES = (event) => event.dataTransfer?.types.includes("Files");

/** Makes every drop zone of the page take a file. */
export function startDrops() {
  for (const zone of document.querySelectorAll(".drop")) startDrop(zone);
  for (const type of ["dragover", "drop"]) {
    addEventListener(type, (event) => HOLDS_FILES(event) && event.preventDefault());
  }
}

function startDrop(zone) {
  const input = zone.querySelector("input");
  const over = (is) => (event) => {
    if (!HOLDS_FILES(event)) return;
    event.preventDefault();
    zone.classList.toggle("over", is);
  };
  zone.addEventListener("dragenter", over(true));
  zone.addEventListener("dragover", over(true));
  zone.addEventListener("dragleave", over(false));
  zone.addEventListener("drop", (event) => {
    over(false)(event);
    if (!HOLDS_FILES(event)) return;
    const one = new DataTransfer();
    one.items.add(event.dataTransfer.files[0]);
    input.files = one.files;
    input.dispatchEvent(new Event("input", { bubbles: true }));
  });
}
