
'use strict';
// Filters by kind and by a part of the name. The fragment of the address tells them, as #old&q=index, so that a filtered view can be linked to. Each change goes
// over the rows once. A browser takes long to lay out a hundred thousand rows, so it gets them by STEP at a time. The class `starting` keeps all groups of rows but
// the first from being laid out before that; should anything fail here, it is taken away and all rows are shown.
{
  const KINDS = ['old', 'new', 'changed'];
  const STEP = 2000;
  const PAUSE = 120;

  function start() {
    const form = document.getElementById('filters');
    const told = document.getElementById('told');
    const more = document.getElementById('more');
    const text = form.elements.q;
    const nameOf = row => Array.from(row.querySelectorAll('bdi'), name => name.textContent).join('\n').toLowerCase();
    const rows = Array.from(document.querySelectorAll('#differences > tbody > tr'), row => ({ row, kind: row.className, name: nameOf(row) }));
    let most = STEP;
    let timer = 0;

    // Shows the rows that the filters let through, up to the most.
    function apply() {
      const part = text.value.toLowerCase();
      const wanted = {}, found = {};
      KINDS.forEach(kind => { wanted[kind] = form.elements[kind].checked; found[kind] = 0; });
      let fitting = 0;
      for (const { row, kind, name } of rows) {
        const named = name.includes(part);
        found[kind] += named;
        const fits = named && wanted[kind];
        fitting += fits;
        const hide = !fits || fitting > most;
        if (row.hidden !== hide) row.hidden = hide;
      }
      tell(found, fitting);
    }

    function tell(found, fitting) {
      KINDS.forEach(kind => { form.querySelector('.' + kind + ' .count').textContent = found[kind]; });
      const cut = fitting > most;
      const all = rows.length + (rows.length === 1 ? ' difference' : ' differences');
      told.textContent = fitting + ' of ' + all + (cut ? '; the first ' + most + ' are shown' : ' shown');
      more.textContent = 'Show ' + Math.min(STEP, fitting - most) + ' more';
      more.hidden = !cut;
    }

    function showing(count) {
      most = count;
      apply();
    }

    // The filters that the address tells; where it names no kind, all are shown.
    function read() {
      const asked = new URLSearchParams(location.hash.slice(1));
      const all = ![...KINDS, 'none'].some(word => asked.has(word));
      KINDS.forEach(kind => { form.elements[kind].checked = all || asked.has(kind); });
      text.value = asked.get('q') || '';
      showing(STEP);
    }

    function write() {
      const kinds = KINDS.filter(kind => form.elements[kind].checked);
      const words = kinds.length === KINDS.length ? [] : kinds.length ? kinds : ['none'];
      if (text.value) words.push('q=' + encodeURIComponent(text.value));
      try {
        history.replaceState(null, '', '#' + words.join('&'));
      } catch (refused) {
        // Where a page of a file may not change its address, the filters work all the same.
      }
    }

    // Typing waits for a pause, so that a long table is not gone through for each letter.
    function later() {
      clearTimeout(timer);
      timer = setTimeout(() => { showing(STEP); write(); }, PAUSE);
    }

    read();
    form.addEventListener('input', later);
    form.addEventListener('reset', later);
    form.addEventListener('submit', event => event.preventDefault());
    more.addEventListener('click', () => showing(most + STEP));
    addEventListener('hashchange', read);
    addEventListener('beforeprint', () => showing(rows.length));
    addEventListener('afterprint', () => showing(STEP));
    form.hidden = told.hidden = false;
  }

  const root = document.documentElement;
  root.classList.add('starting');
  document.addEventListener('DOMContentLoaded', () => {
    try {
      start();
    } finally {
      root.classList.remove('starting');
    }
  });
}
