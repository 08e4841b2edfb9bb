// Light or dark: as the system has it, or as the reader chose.

const dark = matchMedia("(prefers-color-scheme: dark)");
const ORDER = ["auto", "light", "dark"];
const NAMES = { auto: "Auto", light: "Light", dark: "Dark" };
const chosen = () => localStorage.getItem("jps-theme") || "auto";

/** Has the page in its theme, and the button that leads to the next one; `told` is told each theme. */
export function beginTheme(button, told) {
  const take = () => {
    const theme = chosen() === "auto" ? (dark.matches ? "dark" : "light") : chosen();
    document.documentElement.dataset.theme = theme;
    button.textContent = NAMES[chosen()];
    button.setAttribute("aria-label", `Colours: ${NAMES[chosen()]}`);
    told(theme);
  };
  button.onclick = () => {
    localStorage.setItem("jps-theme", ORDER[(ORDER.indexOf(chosen()) + 1) % 3]);
    take();
  };
  dark.addEventListener("change", take);
  take();
}
