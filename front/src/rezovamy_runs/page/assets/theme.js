// The colours of a page, and the button that shows its keys.

// Light or dark as the system has it, until one is chosen; on paper light.
const THEMES = ["auto", "light", "dark"];
const prefers_dark = matchMedia("(prefers-color-scheme: dark)");
let theme = "auto", on_paper = false;

function kept(key, value) {
  try {
    if (value !== undefined) localStorage.setItem(key, value);
    return localStorage.getItem(key);
  } catch {
    return null;
  }
}

function apply_theme() {
  const dark = !on_paper && (theme === "dark" || (theme === "auto" && prefers_dark.matches));
  document.documentElement.dataset.theme = dark ? "dark" : "light";
  const button = document.getElementById("theme");
  button.textContent = { auto: "Theme: auto", light: "Theme: light", dark: "Theme: dark" }[theme];
  document.dispatchEvent(new Event("theme"));
}

function start_theme() {
  theme = THEMES.find((one) => one === kept("rezovamy-theme")) ?? "auto";
  apply_theme();
  prefers_dark.addEventListener("change", apply_theme);
  addEventListener("beforeprint", () => { on_paper = true; apply_theme(); });
  addEventListener("afterprint", () => { on_paper = false; apply_theme(); });
  document.getElementById("theme").addEventListener("click", () => {
    theme = THEMES[(THEMES.indexOf(theme) + 1) % THEMES.length];
    kept("rezovamy-theme", theme);
    apply_theme();
  });
}

function start_help() {
  const keys = document.getElementById("keys"), help = document.getElementById("help");
  keys.addEventListener("click", () => {
    help.hidden = !help.hidden;
    keys.setAttribute("aria-expanded", String(!help.hidden));
    document.dispatchEvent(new Event("resized"));
  });
}
