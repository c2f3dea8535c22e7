"use strict";
// A button copies the game string beside it. If the browser forbids that, it is selected.
document.addEventListener("click", async (event) => {
  if (!event.target.matches("button.copy")) {
    return;
  }
  const code = event.target.parentElement.querySelector("code");
  getSelection().selectAllChildren(code);
  let copied = document.execCommand("copy");
  if (!copied && navigator.clipboard) {
    copied = await navigator.clipboard.writeText(code.textContent).then(() => true, () => false);
  }
  event.target.textContent = copied ? "Copied" : "Selected";
});
