// Each text that is seen with less contrast than WCAG AA wants: 4.5, and 3 of large text.
(() => {
  const known = new Map();
  const canvas = new OffscreenCanvas(1, 1).getContext("2d", { willReadFrequently: true });

  function colour(text) {
    if (!known.has(text)) {
      canvas.clearRect(0, 0, 1, 1);
      canvas.fillStyle = text;
      canvas.fillRect(0, 0, 1, 1);
      known.set(text, [...canvas.getImageData(0, 0, 1, 1).data]);
    }
    return known.get(text);
  }

  function light([red, green, blue]) {
    const [r, g, b] = [red, green, blue].map((part) => part / 255)
      .map((share) => (share <= 0.04045 ? share / 12.92 : ((share + 0.055) / 1.055) ** 2.4));
    return 0.2126 * r + 0.7152 * g + 0.0722 * b;
  }

  function ratio(one, other) {
    const [most, least] = [light(one), light(other)].sort((a, b) => b - a);
    return (most + 0.05) / (least + 0.05);
  }

  /** The colour below an element: of the nearest one around it that is not seen through. */
  function ground(element) {
    for (let at = element; at; at = at.parentElement) {
      const found = colour(getComputedStyle(at).backgroundColor);
      if (found[3] === 255) return found;
    }
    return [255, 255, 255, 255];
  }

  const faint = new Set();
  function look(element, text, style) {
    const size = parseFloat(style.fontSize);
    const isLarge = size >= 24 || (size >= 18.66 && parseInt(style.fontWeight) >= 700);
    const seen = ratio(colour(style.color), ground(element));
    if (seen < (isLarge ? 3 : 4.5)) faint.add(`${seen.toFixed(2)} ${element.tagName}.${element.className} ${text.trim().slice(0, 40)}`);
  }

  const walker = document.createTreeWalker(document.body, NodeFilter.SHOW_TEXT);
  for (let node; (node = walker.nextNode());) {
    const element = node.parentElement;
    const isSeen = element.checkVisibility({ opacityProperty: true, visibilityProperty: true });
    if (isSeen && node.textContent.trim()) look(element, node.textContent, getComputedStyle(element));
  }
  for (const field of document.querySelectorAll("input, select, textarea")) {
    if (field.checkVisibility() && !field.closest(".code")) look(field, "field", getComputedStyle(field));
  }
  const line = document.querySelector(".line");
  if (line) look(line, "number of a line", getComputedStyle(line, "::before"));
  return [...faint];
})()
