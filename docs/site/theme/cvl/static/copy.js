// A button that copies each block of code; of a session in Python or in the shell it copies what you type, without prompts and answers.
const PROMPT = /^(>>>|\.\.\.|\$)( |$)/;

const typed = (text) => {
  const lines = text.replace(/\n+$/, "").split("\n");
  return (PROMPT.test(lines[0]) ? lines.filter((line) => PROMPT.test(line)).map((line) => line.replace(PROMPT, "")) : lines).join("\n") + "\n";
};

// also on pages that are files, for which a browser may have no clipboard
const copied = async (text) => {
  try {
    await navigator.clipboard.writeText(text);
  } catch {
    const field = Object.assign(document.createElement("textarea"), { value: text });
    document.body.append(field);
    field.select();
    document.execCommand("copy");
    field.remove();
  }
};

for (const block of document.querySelectorAll("main div.highlight")) {
  const button = Object.assign(document.createElement("button"), { type: "button", className: "copy", textContent: "Copy" });
  button.setAttribute("aria-label", "Copy this code");
  button.addEventListener("click", async () => {
    await copied(typed(block.querySelector("pre").textContent));
    button.textContent = "Copied";
    setTimeout(() => (button.textContent = "Copy"), 2000);
    button.focus();
  });
  block.append(button);
}
