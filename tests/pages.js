// Looks at pages that stand in frames, and writes what it finds: 'fact WORDS' for what stands in a page, and
// 'WHAT: ok' or 'WHAT: failed' for what must hold of every page, each after the page's name. pages.sh reads it.
'use strict';

const WIDTHS = [1000, 360];
const LEAST_LETTERS = 11;
const LEAST_CONTRAST = 4.5;
const LEAST_CONTRAST_OF_LINES = 3;
const findings = [];

const all = (node, selector) => [...node.querySelectorAll(selector)];
const words = (node) => node.textContent.replace(/\s+/g, ' ').trim();
const box = (node) => node.getBoundingClientRect();
const near = (one, other, within = 1) => Math.abs(one - other) <= within;
const middle = (node) => (box(node).left + box(node).right) / 2;

// the elements that have text of their own which is shown
function withText(page) {
  const shown = [];
  const walker = page.createTreeWalker(page.body, NodeFilter.SHOW_TEXT);
  while (walker.nextNode()) {
    const element = walker.currentNode.parentElement;
    if (walker.currentNode.data.trim() && element.getClientRects().length) shown.push(element);
  }
  return shown;
}

// the parts of a colour as the browser tells it: red, green, blue, and how much it covers
function parts(colour) {
  const [red, green, blue, cover = 1] = (colour.match(/[\d.]+/g) || [0, 0, 0, 0]).map(Number);
  return [red, green, blue, cover];
}

// how light a colour is, and how far two are apart, as the guidelines for accessible pages define it
function lightness(colour) {
  const [red, green, blue] = parts(colour).slice(0, 3).map((part) => {
    const share = part / 255;
    return share <= 0.04045 ? share / 12.92 : ((share + 0.055) / 1.055) ** 2.4;
  });
  return 0.2126 * red + 0.7152 * green + 0.0722 * blue;
}

function contrast(one, other) {
  const [light, dark] = [lightness(one), lightness(other)].sort((a, b) => b - a);
  return (light + 0.05) / (dark + 0.05);
}

// the colour behind an element
function behind(style, element) {
  for (let at = element; at; at = at.parentElement) {
    const colour = style(at).backgroundColor;
    if (parts(colour)[3] === 1) return colour;
  }
  return 'rgb(255, 255, 255)';
}

// the colours of a text and of what it stands on; a key in a bar stands on its own rim
function textColours(style, element) {
  if (!element.closest('svg')) return [style(element).color, behind(style, element)];
  const rim = style(element).stroke;
  return [style(element).fill, rim === 'none' ? behind(style, element) : rim];
}

// Each check returns what is wrong, a line each.
const checks = {
  // what was fetched over the network, and whatever names a place to fetch from, which a file would not show otherwise
  'it fetches nothing': (page, style, view) => {
    const fetched = view.performance.getEntriesByType('resource').map((entry) => entry.name);
    const naming = all(page, ['src', 'srcset', 'href', 'data', 'poster', 'action'].map((name) => `[${name}]`).join());
    const styled = all(page, 'style').flatMap((sheet) => sheet.textContent.match(/@import|url\((?!#)[^)]*/g) || []);
    return fetched.concat(naming.map((node) => node.outerHTML), styled);
  },

  'it runs nothing': (page) => {
    const policy = page.querySelector('meta[http-equiv="Content-Security-Policy"]');
    const wrong = all(page, 'script, iframe, object, embed, link, img, a, form').map((node) => node.outerHTML);
    const handlers = all(page, '*').filter((node) => [...node.attributes].some(({ name }) => name.startsWith('on')));
    if (!policy || !policy.content.startsWith("default-src 'none'")) wrong.push('no policy');
    return wrong.concat(handlers.map((node) => node.outerHTML));
  },

  'headings go down by one': (page) => {
    const levels = all(page, 'h1, h2, h3, h4, h5, h6').map((node) => Number(node.tagName[1]));
    const wrong = levels.filter((level, place) => level > (place ? levels[place - 1] : 0) + 1);
    return levels.filter((level) => level === 1).length === 1 ? wrong : ['not one h1'];
  },

  'its parts are named': (page) => {
    const wrong = all(page, 'section, [aria-labelledby]').filter((node) => {
      const named = (node.getAttribute('aria-labelledby') || 'none').split(' ');
      return !named.every((name) => page.getElementById(name) && words(page.getElementById(name)));
    });
    const tables = all(page, 'table').filter((table) => !table.caption || !words(table.caption));
    const titles = all(page, 'th').filter((title) => !['row', 'col'].includes(title.scope));
    const language = page.documentElement.lang === 'en' && page.querySelector('main') ? [] : ['no main, or no language'];
    return wrong.concat(tables, titles).map((node) => node.outerHTML.slice(0, 200)).concat(language);
  },

  'every picture is told in words': (page) =>
    all(page, 'svg:not([aria-hidden=true])')
      .filter((svg) => {
        const [title, description] = ['title', 'desc'].map((tag) => svg.querySelector(`:scope > ${tag}`));
        const told = svg.getAttribute('aria-labelledby');
        const named = title && description && words(title) && words(description);
        return svg.getAttribute('role') !== 'img' || !named || told !== `${title.id} ${description.id}`;
      })
      .map((svg) => svg.outerHTML.slice(0, 200)),

  'no letters are too small': (page, style) =>
    withText(page)
      .filter((element) => parseFloat(style(element).fontSize) < LEAST_LETTERS)
      .map((element) => `${style(element).fontSize}: ${words(element)}`),
};

// What depends on how wide the page is.
const layout = {
  'nothing is wider than the page': (page) => {
    const width = page.documentElement.clientWidth;
    const scrolls = page.documentElement.scrollWidth > width ? [`it scrolls to ${page.documentElement.scrollWidth}`] : [];
    const wide = all(page.body, '*').filter((node) => {
      if (node.parentElement.closest('.scrolling, svg')) return false;
      return box(node).right > width + 0.5 || box(node).left < -0.5;
    });
    return scrolls.concat(wide.map((node) => node.outerHTML.slice(0, 200)));
  },

  'bars lie within their pictures': (page) => {
    const outside = (svg) => (part) =>
      box(part).left < box(svg).left - 0.5 || box(part).right > box(svg).right + 0.5 ||
      box(part).top < box(svg).top - 0.5 || box(part).bottom > box(svg).bottom + 0.5;
    return all(page, 'svg.bar').flatMap((svg) =>
      all(svg, 'rect, line, text').filter(outside(svg)).map((part) => part.outerHTML));
  },

  'bars are as long as what they show': (page) => all(page, 'section.budget').flatMap(wrongLengths),

  'what is beyond the limit begins at its line': (page) => all(page, 'figure').flatMap(wrongLimit),

  'no words of a bar stand on others': (page) =>
    all(page, 'svg.bar').flatMap((svg) => {
      const texts = all(svg, 'text').map((text) => [text, box(text)]);
      const meet = (one, other) =>
        one.left < other.right && other.left < one.right && one.top < other.bottom && other.top < one.bottom;
      const covered = ([, own], place) => texts.some(([, other], before) => before < place && meet(own, other));
      return texts.filter(covered).map(([text]) => text.outerHTML);
    }),

  'no key stands on a line': (page) =>
    all(page, 'svg.bar').flatMap((svg) => {
      const lines = all(svg, 'line');
      const crosses = (key) => lines.some((line) => box(key).left < middle(line) && middle(line) < box(key).right);
      return all(svg, 'text.key').filter(crosses).map((key) => key.outerHTML);
    }),
};

// the first bar of a budget has a segment for each number of its table, of that part of the whole
function wrongLengths(budget) {
  const segments = all(budget.querySelector('figure'), '.segment').map((segment) => box(segment).width);
  const cells = all(budget, 'tbody td:last-child').map(words);
  const amounts = cells.filter((cell) => /^\d+$/.test(cell)).map(Number);
  const sum = (numbers) => numbers.reduce((one, other) => one + other, 0);
  if (segments.length !== amounts.length) return [`${segments.length} segments for ${amounts.length} claims`];
  const part = sum(segments) / (sum(amounts) || 1);
  return segments.filter((width, place) => !near(width, amounts[place] * part)).map((width) => `a segment of ${width}`);
}

// the limit stands at its number, and what is beyond it reaches from there to the end of the claims
function wrongLimit(figure) {
  const told = words(figure.querySelector('figcaption')).match(/(-?\d+) claimed of (-?\d+): (.*)/);
  if (!told) return ['a bar without its sum'];
  const [total, room] = [Number(told[1]), Number(told[2])];
  const [line, label] = ['line.limit', 'text.limit'].map((selector) => figure.querySelector(selector));
  const [segments, beyond] = [all(figure, '.segment'), all(figure, 'rect.beyond')];
  const wrong = words(label) === `limit ${room}` ? [] : [`the limit is told as ${words(label)}`];
  const rest = room - total;
  const expected = rest > 0 ? `${rest} left` : rest < 0 ? `${-rest} beyond the limit` : 'nothing left';
  if (told[3] !== expected) wrong.push(`${told[3]}, and not ${expected}`);
  if (beyond.length !== (rest < 0 ? 1 : 0)) wrong.push(`${beyond.length} stretches beyond the limit`);
  if (beyond.length && !near(box(beyond[0]).left, middle(line))) wrong.push('beyond does not begin at the limit');
  if (!segments.length) return wrong;
  const [from, to] = [box(segments[0]).left, box(segments[segments.length - 1]).right];
  if (beyond.length && !near(box(beyond[0]).right, to)) wrong.push('beyond does not end with the claims');
  const place = from + (room / total) * (to - from);
  const bound = Math.max(1, Math.abs(room / total));
  return near(middle(line), place, 1 + bound / 2) ? wrong : wrong.concat('the limit is not at its number');
}

// What depends on the colours, light or dark.
const colours = {
  'texts stand out': (page, style) =>
    withText(page)
      .map((element) => [contrast(...textColours(style, element)), element])
      .filter(([found]) => found < LEAST_CONTRAST)
      .map(([found, element]) => `${found.toFixed(2)}: ${words(element)}`),

  'lines of bars stand out': (page, style) =>
    all(page, 'line.limit, line.nothing, .segment, rect.beyond, .room')
      .map((part) => [contrast(style(part).stroke, behind(style, part)), part])
      .filter(([found]) => found < LEAST_CONTRAST_OF_LINES)
      .map(([found, part]) => `${found.toFixed(2)}: ${part.outerHTML}`),
};

// what stands in a page, for whoever knows what should
function facts(page) {
  const tell = (what, selector) => all(page, selector).map((node) => `${what} ${words(node)}`);
  const rows = all(page, '[aria-labelledby=plug-in-table] tbody tr');
  const cells = rows.map((row) => `plug-in ${all(row, 'td, th').map(words).join(' | ')}`);
  return [
    `title ${page.title}`,
    ...tell('heading', 'h1'),
    ...tell('verdict', '.verdict'),
    ...tell('in the conflict', '[aria-labelledby=conflict] li'),
    ...tell('asked', '.sets .quiet'),
    ...cells,
    ...tell('budget', 'h3'),
    ...tell('bar', 'figcaption'),
    ...tell('host', '.rows li'),
    ...tell('requests', '.requests > div'),
  ];
}

function report(name, what, wrong) {
  findings.push(`${name}: ${what}: ${wrong.length ? 'failed' : 'ok'}`, ...wrong.slice(0, 5).map((line) => `  ${line}`));
}

// looks at the page of a frame; where it cannot, that is a failure too
function look(frame, scheme) {
  const [name, page, view] = [frame.title, frame.contentDocument, frame.contentWindow];
  const style = (element) => view.getComputedStyle(element);
  const each = (group, told) => Object.entries(group).forEach(([what, check]) => {
    try {
      report(name, told(what), check(page, style, view));
    } catch (error) {
      report(name, told(what), [String(error)]);
    }
  });
  const seen = view.matchMedia('(prefers-color-scheme: dark)').matches ? 'dark' : 'light';
  report(name, `it is seen in ${scheme}`, seen === scheme ? [] : [`seen in ${seen}`]);
  each(colours, (what) => `${what} in ${scheme}`);
  if (scheme === 'dark') return;
  each(checks, (what) => what);
  for (const width of WIDTHS) {
    frame.style.width = `${width}px`;
    const found = page.documentElement.clientWidth;
    report(name, `it is seen ${width} wide`, found === width ? [] : [`seen ${found} wide`]);
    each(layout, (what) => `${what}, ${width} wide`);
  }
  facts(page).forEach((fact) => findings.push(`${name}: fact ${fact}`));
}

// where the picture of a page ends: below its budgets
function pictureEnd(frame) {
  frame.style.width = '900px';
  const budgets = frame.contentDocument.querySelector('[aria-labelledby=budgets]');
  findings.push(`${frame.title}: picture ${Math.ceil(box(budgets).bottom + 16)}`);
}

window.addEventListener('load', () => {
  const { scheme } = document.documentElement.dataset;
  const frames = all(document, 'iframe');
  frames.forEach((frame) => (scheme === 'picture' ? pictureEnd(frame) : look(frame, scheme)));
  findings.push(`looked at ${frames.length}`);
  const told = document.createElement('pre');
  told.id = 'findings';
  told.textContent = `\n${findings.join('\n')}\n`;
  document.body.replaceChildren(told);
});
