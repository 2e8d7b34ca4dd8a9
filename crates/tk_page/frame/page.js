'use strict';
document.body.className = 'live';
const title = document.querySelector('h1').textContent;
if (title !== 'taskscope') document.title = title + ': taskscope';
const table = document.getElementById('table') || document.getElementById('changes'), sites = document.getElementById('sites'), all = [...table.tBodies[0].rows];
const input = (id) => document.getElementById(id) || document.createElement('input');
for (const row of all) {
  const link = document.createElement('a');
  link.className = 'own-link';
  link.href = '#' + row.id;
  link.textContent = '#';
  link.title = 'the link to this row';
  link.tabIndex = -1;
  if (row.id) row.cells[0].append(link);
}
const filter = input('filter'), only = input('only'), shown = input('shown');
const count = document.querySelector('.facts b'), many = table.id === 'table' && count ? Number(count.textContent.replace(/[^0-9]/g, '')) : 0;
const few = all.length < many ? all.length + ' of ' + count.textContent + ' tasks have rows' : '';
const show = () => {
  const word = filter.value.toLowerCase();
  let n = 0;
  for (const row of all) {
    const name = row.querySelector('th').textContent.toLowerCase();
    row.hidden = !name.includes(word) || (only.checked && row.dataset.odd !== '1');
    if (!row.hidden) n++;
  }
  shown.textContent = n === all.length ? few : n + ' of ' + all.length + ' tasks' + (few && ' that have rows');
};
let span = null;
const keep = () => {
  const asked = new URLSearchParams();
  if (filter.value) asked.set('name', filter.value);
  if (only.checked) asked.set('odd', '1');
  for (const [word, sortable] of [['sort', table], ['places', sites]]) {
    const head = sortable && sortable.tHead.querySelector('[aria-sort]');
    if (head) asked.set(word, (head.ariaSort === 'descending' ? '-' : '') + head.cellIndex);
  }
  if (span) asked.set('span', span.join('-'));
  const words = asked.toString();
  history.replaceState(null, '', (words ? '?' + words : location.pathname) + location.hash);
};
filter.addEventListener('input', () => { show(); keep(); });
only.addEventListener('change', () => { show(); keep(); });
addEventListener('hashchange', () => {
  const row = document.getElementById(location.hash.slice(1));
  if (row && row.hidden) {
    filter.value = '';
    only.checked = false;
    show();
    row.scrollIntoView();
  }
});
const of = (cell) => cell.dataset.v === undefined ? cell.textContent : BigInt(cell.dataset.v);
const order = (table, rows) => {
  const head = table.tHead.querySelector('[aria-sort]');
  if (!head) return;
  const i = head.cellIndex, way = head.getAttribute('aria-sort') === 'descending' ? -1 : 1;
  rows.sort((a, b) => {
    const x = of(a.cells[i]), y = of(b.cells[i]);
    return (x < y ? -1 : x > y ? 1 : 0) * way;
  });
  table.tBodies[0].append(...rows);
};
const sorts = (table, rows) => {
  for (const button of table.tHead.querySelectorAll('button')) {
    const head = button.parentNode;
    button.addEventListener('click', () => {
      const down = head.getAttribute('aria-sort') !== 'descending';
      for (const other of table.tHead.querySelectorAll('[aria-sort]')) other.removeAttribute('aria-sort');
      head.setAttribute('aria-sort', down ? 'descending' : 'ascending');
      order(table, rows);
      keep();
    });
  }
};
const sorted = (table, sort) => {
  const button = sort && table && table.tHead.rows[table.tHead.rows.length - 1].cells[Math.abs(sort)]?.querySelector('button');
  if (button) for (let times = sort[0] === '-' ? 1 : 2; times > 0; times--) button.click();
};
sorts(table, all);
if (sites) {
  sorts(sites, [...sites.tBodies[0].rows]);
  for (const head of sites.tBodies[0].querySelectorAll('th')) {
    const at = / at (.*?:[0-9]+:[0-9]+)/.exec(head.textContent);
    if (!at) continue;
    const link = document.createElement('a');
    link.href = '#tasks';
    link.title = 'its tasks';
    link.append(...head.childNodes);
    head.append(link);
    link.addEventListener('click', () => { filter.value = at[1]; only.checked = false; show(); keep(); });
  }
}
const asked = new URLSearchParams(location.search);
filter.value = asked.get('name') || '';
only.checked = asked.has('odd');
sorted(table, asked.get('sort'));
sorted(sites, asked.get('places'));
show();
const watched = Number(table.dataset.v), unit = Math.floor(watched / 1000) + 1;
const grouped = (n) => n < 10000 ? String(n) : String(n).replace(/(?!^)(?=([0-9]{3})+$)/g, String.fromCharCode(0x202f));
const noBreak = String.fromCharCode(160);
const tenths = (n, few) => n < few ? (n / 10).toFixed(1) : grouped(Math.floor(n / 10));
const time = (ns) => {
  const [word, size] = [['s', 1e9], ['ms', 1e6], [String.fromCharCode(181) + 's', 1e3]].find((one) => ns >= one[1]) || ['ns', 1];
  return (size > 1 ? tenths(Math.floor(ns * 10 / size), 1000) : grouped(ns)) + noBreak + word;
};
const moment = (x, wide) => {
  if (x === 0 || x >= wide) return x === 0 ? '0' : time(watched);
  for (let size = 1e20; size >= 1; size /= 10) {
    const round = Math.ceil(x * unit / size) * size;
    if (round < (x + 1) * unit) return time(round);
  }
  return time(x * unit);
};
const share = (n) => tenths(n, 100) + noBreak + '%';
const mean = (n) => grouped(Math.floor(n / 1000)) + '.' + Math.floor(n % 1000 / 100);
const whom = [...table.querySelectorAll('.who')].map((who) => who.textContent);
const told = (strip, step) => {
  const name = strip.closest('tr').querySelector('.name');
  if (!name) return mean(step[1]) + ' tasks waited' + whom.map((who, i) => step[i + 2] ? ', ' + mean(step[i + 2]) + ' for ' + who : '').join('');
  const own = step[4] ? ', ' + grouped(step[4]) + ' of its own' : '';
  return name.textContent + ': busy ' + share(step[1]) + ', waiting ' + share(step[2]) + ', ' + grouped(step[3]) + (step[3] === 1 ? ' wake' : ' wakes') + own;
};
const tip = document.createElement('p'), mark = document.createElementNS('http://www.w3.org/2000/svg', 'rect');
tip.id = 'step';
tip.hidden = true;
tip.setAttribute('role', 'status');
document.body.append(tip);
mark.setAttribute('class', 'at');
mark.setAttribute('height', '100%');
const strips = () => [...table.querySelectorAll('svg[data-steps]')].filter((strip) => strip.dataset.steps && strip.getClientRects().length);
const steps = (strip) => strip.dataset.steps.split(';').slice(0, -1).map((step) => step.split(',').map(Number));
const wide = (strip) => strip.viewBox.baseVal.width;
const at = (strip, x) => steps(strip).findLastIndex((step) => step[0] <= x);
const hide = () => { tip.hidden = true; mark.remove(); };
const tell = (strip, i) => {
  const all = steps(strip), step = all[i], end = wide(strip), to = i + 1 < all.length ? all[i + 1][0] : end;
  if (!step) return hide();
  mark.setAttribute('x', step[0]);
  mark.setAttribute('width', to - step[0]);
  strip.append(mark);
  tip.textContent = moment(step[0], end) + ' to ' + moment(to, end) + ': ' + told(strip, step);
  tip.hidden = false;
  const box = strip.getBoundingClientRect(), most = document.documentElement.clientWidth - tip.offsetWidth - 8;
  tip.style.left = scrollX + Math.max(8, Math.min(box.left + box.width * step[0] / end, most)) + 'px';
  tip.style.top = scrollY + (box.bottom + tip.offsetHeight + 8 > innerHeight ? box.top - tip.offsetHeight - 4 : box.bottom + 4) + 'px';
};
const chosen = document.createElement('span'), band = mark.cloneNode(), whole = new Map();
chosen.setAttribute('role', 'status');
chosen.id = 'span';
band.setAttribute('class', 'at span');
shown.after(chosen);
const sums = (strip, from, to) => {
  const every = steps(strip), sum = [0, 0, 0, 0];
  every.forEach((step, i) => {
    const end = i + 1 < every.length ? every[i + 1][0] : wide(strip), part = Math.min(end, to) - Math.max(step[0], from);
    if (part > 0) sum.forEach((_, n) => { sum[n] += step[n + 1] * part / (n < 2 ? to - from : end - step[0]); });
  });
  return sum;
};
const put = (cell, v, text, part) => {
  cell.dataset.v = Math.round(v);
  if (part === undefined) return cell.replaceChildren(text);
  cell.querySelector('rect').setAttribute('width', Math.min(100, Math.round(part / 10)));
  cell.querySelector('svg').nextSibling.textContent = ' ' + text + ' ';
  cell.querySelector('small').textContent = time(Math.round(v));
};
const narrow = (row) => {
  const strip = row.querySelector('svg[data-steps]');
  if (!strip) return;
  const [busy, wait, wakes, own] = sums(strip, ...span), long = (span[1] - span[0]) * unit;
  put(row.cells[3], busy * long / 1000, share(busy), busy);
  put(row.cells[4], wait * long / 1000, share(wait), wait);
  put(row.cells[7], wakes, grouped(Math.round(wakes)));
  put(row.cells[8], own, grouped(Math.round(own)));
};
const choose = (from, to) => {
  const total = table.querySelector('svg.total');
  for (const [cell, was] of whole) {
    cell.replaceChildren(...[...was.childNodes].map((node) => node.cloneNode(true)));
    cell.dataset.v = was.dataset.v;
  }
  band.remove();
  chosen.replaceChildren();
  span = total && from >= 0 && from < to && to <= wide(total) ? [from, to] : null;
  table.classList.toggle('narrow', span !== null);
  if (span) {
    if (!whole.size) for (const row of all) for (const i of [3, 4, 7, 8]) whole.set(row.cells[i], row.cells[i].cloneNode(true));
    all.forEach(narrow);
    band.setAttribute('x', from);
    band.setAttribute('width', to - from);
    total.append(band);
    const lift = document.createElement('button');
    lift.type = 'button';
    lift.textContent = 'Show the whole time';
    lift.addEventListener('click', () => choose(0, 0));
    chosen.append('Busy, waiting, wakes and own: from ' + moment(from, wide(total)) + ' to ' + moment(to, wide(total)) + ' ', lift);
  }
  order(table, all);
  keep();
};
const reaches = (strip, from, to) => {
  const every = steps(strip), [a, b] = from < to ? [from, to] : [to, from];
  if (every[a]) choose(every[a][0], b + 1 < every.length ? every[b + 1][0] : wide(strip));
};
for (const button of document.querySelectorAll('th[title] button')) {
  const hint = button.parentNode.title;
  if (!hint) continue;
  button.addEventListener('focus', () => {
    if (!button.matches(':focus-visible')) return;
    const box = button.getBoundingClientRect();
    tip.textContent = hint;
    tip.hidden = false;
    tip.style.left = scrollX + Math.max(8, Math.min(box.left, document.documentElement.clientWidth - tip.offsetWidth - 8)) + 'px';
    tip.style.top = scrollY + box.bottom + 4 + 'px';
  });
  button.addEventListener('blur', hide);
}
let reached = 0, anchor = null;
const reach = (strip) => {
  for (const other of table.querySelectorAll('svg[tabindex]')) other.setAttribute('tabindex', '-1');
  strip.setAttribute('tabindex', '0');
  strip.focus();
};
for (const strip of table.querySelectorAll('svg[data-steps]')) {
  strip.setAttribute('tabindex', '-1');
  const under = (event) => {
    const box = strip.getBoundingClientRect();
    return at(strip, (event.clientX - box.left) / box.width * wide(strip));
  };
  const point = (event) => tell(strip, under(event));
  let pressed = null;
  strip.addEventListener('pointerdown', (event) => { pressed = event.pointerType === 'touch' ? null : under(event); });
  strip.addEventListener('pointerup', (event) => {
    const i = under(event);
    if (pressed !== null && i !== pressed && i >= 0) reaches(strip, Math.max(0, pressed), i);
    pressed = null;
  });
  strip.addEventListener('pointermove', point);
  strip.addEventListener('pointerdown', point);
  strip.addEventListener('pointerleave', hide);
  strip.addEventListener('blur', hide);
  strip.addEventListener('focus', () => { if (strip.matches(':focus-visible')) tell(strip, Math.max(0, at(strip, reached))); });
  strip.addEventListener('keydown', (event) => {
    const all = steps(strip), i = Math.max(0, at(strip, reached)), rows = strips(), row = rows.indexOf(strip);
    const go = { ArrowLeft: i - 1, ArrowRight: i + 1, Home: 0, End: all.length - 1 }[event.key];
    const next = { ArrowUp: rows[row - 1], ArrowDown: rows[row + 1] }[event.key];
    if (event.key === 'Escape') {
      hide();
      if (span) choose(0, 0);
    }
    if (next) reach(next);
    if (go !== undefined) {
      const to = Math.max(0, Math.min(go, all.length - 1));
      anchor = event.shiftKey ? anchor ?? reached : null;
      reached = all[to][0];
      tell(strip, to);
      if (anchor !== null) reaches(strip, Math.max(0, at(strip, anchor)), to);
    }
    if (next || go !== undefined) event.preventDefault();
  });
}
if (strips()[0]) strips()[0].setAttribute('tabindex', '0');
const last = document.querySelector('.facts b[data-v]'), ended = last ? Number(last.dataset.v) / 1e9 : 0;
if (ended > 1e9 && ended < 4e9) {
  const old = Math.floor(Date.now() / 1000 - ended), [word, size] = [['days', 86400], ['h', 3600], ['min', 60]].find((one) => old >= 2 * one[1]) || ['s', 1];
  const day = new Date(ended * 1000).toISOString().slice(0, 19).replace('T', ' ');
  last.after(', until ' + day + ' UTC' + (old < 0 ? '' : ', ' + Math.floor(old / size) + ' ' + word + ' ago'));
}
const [from, to] = (asked.get('span') || '').split('-').map(Number);
if (to) choose(from, to);
