// What is wrong with how a page looks in the window as it is: a list of faults in words. tools/develop/check-pages runs it.
(() => {
  const TEXT = 4.5, MARK = 3;
  const faults = new Set();
  const colorOf = words => {
    const found = /^rgba?\(([^)]+)\)/.exec(words);
    return found && (([red, green, blue, alpha = 1]) => ({ rgb: [red, green, blue], alpha }))(found[1].split(/[ ,/]+/).map(Number));
  };
  const light = ({ rgb }) => rgb.map(it => it / 255).map(it => it <= 0.04045 ? it / 12.92 : ((it + 0.055) / 1.055) ** 2.4)
    .reduce((sum, it, at) => sum + it * [0.2126, 0.7152, 0.0722][at], 0);
  const contrast = (one, other) => {
    const [less, more] = [light(one), light(other)].sort((a, b) => a - b);
    return (more + 0.05) / (less + 0.05);
  };
  const styleOf = it => getComputedStyle(it);
  const said = it => `${it.tagName.toLowerCase()}${it.id ? `#${it.id}` : ''}.${[...it.classList].join('.')}`;
  const isSeen = it => it.checkVisibility() && it.getBoundingClientRect().width > 0 && !it.closest('.defs');

  // The color below an element of HTML.
  const ground = it => {
    for (let above = it; above; above = above.parentElement) {
      const color = colorOf(styleOf(above).backgroundColor);
      if (color && color.alpha === 1) return color;
    }
    return { rgb: [255, 255, 255], alpha: 1 };
  };
  const isInside = (point, box) => point.x >= box.left && point.x <= box.right && point.y >= box.top && point.y <= box.bottom;
  const middle = it => {
    const box = it.getBoundingClientRect();
    return { x: box.left + box.width / 2, y: box.top + box.height / 2 };
  };
  // The color below a part of a picture: that of the last shape before it that covers its middle, or of what the picture stands on.
  const groundIn = it => {
    const point = middle(it);
    for (let before = it.previousElementSibling; before; before = before.previousElementSibling) {
      const fill = colorOf(styleOf(before).fill);
      if (before.tagName === 'rect' && fill && fill.alpha && isInside(point, before.getBoundingClientRect())) return fill;
    }
    return ground(it.closest('svg').parentElement);
  };
  const demand = (it, color, below, least) => {
    const found = color && contrast(color, below);
    if (color && found < least) faults.add(`${said(it)} has a contrast of ${found.toFixed(2)}: rgb(${color.rgb}) on rgb(${below.rgb})`);
  };

  const texts = document.createTreeWalker(document.body, NodeFilter.SHOW_TEXT);
  while (texts.nextNode()) {
    const it = texts.currentNode.parentElement;
    if (!texts.currentNode.data.trim() || it.closest('script, style, noscript, title, option') || !isSeen(it)) continue;
    const isDrawn = it.closest('svg') !== null;
    demand(it, colorOf(isDrawn ? styleOf(it).fill : styleOf(it).color), isDrawn ? groundIn(it) : ground(it), TEXT);
  }
  for (const it of document.querySelectorAll('svg rect, svg circle, svg path, svg line')) {
    if (!isSeen(it) && it.tagName !== 'line' || it.matches('.grid, pattern *')) continue;
    const below = groundIn(it), style = styleOf(it);
    const colors = [style.fill, style.stroke].map(colorOf).filter(it => it && it.alpha).sort((a, b) => contrast(b, below) - contrast(a, below));
    demand(it, colors[0], below, MARK);
  }
  for (const it of document.querySelectorAll('.bar, select, input, #controls button')) {
    if (isSeen(it)) demand(it, colorOf(styleOf(it).borderTopColor), ground(it.parentElement), MARK);
  }

  const page = document.documentElement;
  if (page.scrollWidth > page.clientWidth) faults.add(`the page is ${page.scrollWidth} wide in a window of ${page.clientWidth}`);
  for (const it of document.querySelectorAll('body *:not(svg *)')) {
    const box = it.getBoundingClientRect();
    if (isSeen(it) && !it.closest('.fitting') && (box.left < -1 || box.right > page.clientWidth + 1)) faults.add(`${said(it)} reaches from ${box.left} to ${box.right}`);
    if (isSeen(it) && it.scrollWidth > it.clientWidth + 1 && styleOf(it).overflowX !== 'visible' && !it.closest('.fitting, .said')) faults.add(`${said(it)} is cut off`);
  }
  for (const it of document.querySelectorAll('.lane svg text')) {
    const box = it.getBoundingClientRect(), whole = it.closest('svg').getBoundingClientRect();
    if (box.right > whole.right + 1 || box.left < whole.left - 1 || box.bottom > whole.bottom + 1 || box.top < whole.top - 1) faults.add(`${said(it)} ${it.textContent} is cut off by its lane`);
  }

  const inLegend = new Set([...document.querySelectorAll('.legend [class]')].flatMap(it => [...it.classList]));
  const marks = document.querySelectorAll('#timeline svg :is(rect, circle, path, line), #overview path, .bytes .bar, .grid .bar, .row .bar');
  const kinds = new Set([...marks].flatMap(it => [...it.classList]));
  ['grid', 'marked', ...inLegend].forEach(it => kinds.delete(it));
  if (kinds.size) faults.add(`the legend has no ${[...kinds].join(', ')}`);
  return [...faults];
})()
