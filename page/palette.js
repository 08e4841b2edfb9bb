// The page's one palette: it stands in style.css, by theme, and is read from there.

const NAMES = [
  "land", "swamp", "trees", "wall", "water", "beyond", "grid", "walk", "told", "casing", "start", "goal", "mark", "wrong", "looked", "ray",
  "state-1", "state-2", "state-3", "state-4", "plain", "jps", "block", "plus",
];
const read = {};

/** The colours of a theme, by name; the theme has to be the one that the page has. */
export function palette(theme) {
  if (!read[theme]) {
    const style = getComputedStyle(document.documentElement);
    read[theme] = Object.fromEntries(NAMES.map((name) => [name, style.getPropertyValue(`--${name}`).trim()]));
  }
  return read[theme];
}

/** The taken states' colours, from early to late. */
export const stateRamp = (theme) => [1, 2, 3, 4].map((it) => palette(theme)[`state-${it}`]);
