// Functions that the tests run in a page, each by itself (`Browser.call`).

// Whether a part is visible, and has these words, however its lines break.
function shows(selector, words) {
  const flat = (text) => text.replace(/\s+/g, ' ');
  const part = document.querySelector(selector);
  return part !== null && part.checkVisibility() && flat(part.innerText).includes(flat(words));
}

// The contrast of each visible text to its background, by WCAG 2's formula.
function contrasts() {
  const colour = (text) => {
    const [red, green, blue, alpha = 1] = text.match(/[\d.]+/g).map(Number);
    return { parts: [red, green, blue], alpha };
  };
  const light = ({ parts }) => {
    const [red, green, blue] = parts.map((part) => {
      const share = part / 255;
      return share <= 0.04045 ? share / 12.92 : ((share + 0.055) / 1.055) ** 2.4;
    });
    return 0.2126 * red + 0.7152 * green + 0.0722 * blue;
  };
  const behindHtml = (found) => {
    for (let at = found; at !== null; at = at.parentElement) {
      const back = colour(getComputedStyle(at).backgroundColor);
      if (back.alpha === 1) return back;
    }
    return colour('rgb(255, 255, 255)');
  };
  const behindDrawing = (text) => {
    const box = text.getBoundingClientRect();
    const [x, y] = [(box.left + box.right) / 2, (box.top + box.bottom) / 2];
    const under = [...text.ownerSVGElement.querySelectorAll('rect')].filter((shape) => {
      const area = shape.getBoundingClientRect();
      return area.left <= x && x <= area.right && area.top <= y && y <= area.bottom;
    }).at(-1);
    return under === undefined ? behindHtml(text.ownerSVGElement) : colour(getComputedStyle(under).fill);
  };
  const texts = document.createTreeWalker(document.body, NodeFilter.SHOW_TEXT);
  const found = [];
  while (texts.nextNode()) {
    const holder = texts.currentNode.parentElement;
    if (texts.currentNode.data.trim() === '' || holder.getClientRects().length === 0) continue;
    if (['NOSCRIPT', 'SCRIPT', 'title'].includes(holder.nodeName)) continue;
    const isDrawn = holder.nodeName === 'text';
    const style = getComputedStyle(holder);
    const ink = light(colour(isDrawn ? style.fill : style.color));
    const back = light(isDrawn ? behindDrawing(holder) : behindHtml(holder));
    const contrast = (Math.max(ink, back) + 0.05) / (Math.min(ink, back) + 0.05);
    found.push([texts.currentNode.data.trim().slice(0, 40), contrast]);
  }
  return found;
}

// The least contrast of the borders of fields to what is around them.
function leastBorder() {
  const light = (text) => {
    const parts = text.match(/[\d.]+/g).slice(0, 3).map((part) => part / 255);
    const [red, green, blue] = parts.map((share) => share <= 0.04045 ? share / 12.92 : ((share + 0.055) / 1.055) ** 2.4);
    return 0.2126 * red + 0.7152 * green + 0.0722 * blue + 0.05;
  };
  const back = light(getComputedStyle(document.body).backgroundColor);
  return Math.min(...[...document.querySelectorAll('input, select, button:not(.link)')].map((field) => {
    const edge = light(getComputedStyle(field).borderTopColor);
    return Math.max(edge, back) / Math.min(edge, back);
  }));
}

function smallTargets() {
  return [...document.querySelectorAll('a, button, input, select, summary, textarea')].filter((found) => {
    const box = found.getBoundingClientRect();
    return found.getClientRects().length > 0 && box.right > 0 && (box.height < 24 || box.width < 24);
  }).map((found) => found.outerHTML.slice(0, 80));
}

// Puts a text into the lines, like a paste.
function pasteLines(text) {
  const lines = document.getElementById('lines');
  lines.focus();
  const clipboardData = new DataTransfer();
  clipboardData.setData('text/plain', text);
  const event = new ClipboardEvent('paste', { clipboardData, bubbles: true, cancelable: true });
  if (!lines.dispatchEvent(event)) return;
  lines.setRangeText(text, lines.selectionStart, lines.selectionEnd, 'end');
  lines.dispatchEvent(new Event('input', { bubbles: true }));
}

// Notes how long the page is busy at a time, from now on.
function noteBlocks() {
  window.blocks = [];
  new PerformanceObserver((list) => {
    window.blocks.push(...list.getEntries().map(({ duration }) => duration));
  }).observe({ type: 'longtask' });
}

// The controls without a name for a screen reader, and the ids that two elements have.
function unnamed() {
  const controls = [...document.querySelectorAll('a, button, input:not([hidden]), select, summary, textarea')];
  const isNamed = (found) => found.textContent.trim() !== '' && found.localName !== 'select' && found.localName !== 'textarea'
    || found.getAttribute('aria-label') || found.labels?.length > 0;
  const ids = [...document.querySelectorAll('[id]')].map(({ id }) => id);
  return [
    ...controls.filter((found) => found.checkVisibility() && !isNamed(found)).map((found) => found.outerHTML.slice(0, 80)),
    ...ids.filter((id, at) => ids.indexOf(id) !== at),
  ];
}
