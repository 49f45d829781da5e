// Buttons that copy a text.

// Lets a button tell for a moment whether it copied, also to a screen reader.
async function copy(button, text) {
  button.dataset.words ??= button.textContent;
  button.textContent = await copied(text) ? "Copied" : "Not copied";
  announce(button.textContent);
  setTimeout(() => { button.textContent = button.dataset.words; }, 1500);
}

// A page that isn't loaded in a secure way has no clipboard, and copies what is selected.
async function copied(text) {
  try {
    await navigator.clipboard.writeText(text);
    return true;
  } catch {
    return copied_by_selection(text);
  }
}

function copied_by_selection(text) {
  const field = element("textarea", "unseen"), before = document.activeElement;
  field.value = text;
  document.body.append(field);
  field.select();
  const is_copied = document.execCommand("copy");
  field.remove();
  before?.focus();
  return is_copied;
}

// `text_of` is asked when the button is pressed.
function copy_button(words, label, text_of) {
  const button = element("button", "quiet copy", words);
  button.type = "button";
  button.setAttribute("aria-label", label);
  button.addEventListener("click", (event) => {
    event.preventDefault();
    copy(button, text_of());
  });
  return button;
}
