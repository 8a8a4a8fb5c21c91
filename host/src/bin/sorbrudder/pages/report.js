// The search, and the way from list to list by keys. Without it the page has all lists, and each can be opened.
(() => {
  const form = document.querySelector('.search'), box = form.querySelector('input'), told = form.querySelector('output');
  const entries = [...document.querySelectorAll('.entry')];
  const groups = [...document.querySelectorAll('.group')];
  // The texts are gathered when something is searched for the first time.
  let texts = null;
  const flat = text => text.toLowerCase().replace(/\s+/g, ' ').trim();
  const gather = () => entries.map(entry => {
    const lifted = entry.querySelector('.lifted');
    return flat(entry.firstElementChild.textContent + ' ' + (lifted ? lifted.textContent : ''));
  });
  const shown = () => entries.filter(entry => !entry.hidden);
  const search = () => {
    const wanted = flat(box.value);
    texts = texts || gather();
    let count = 0;
    entries.forEach((entry, place) => {
      const hidden = wanted !== '' && !texts[place].includes(wanted);
      if (entry.hidden !== hidden) entry.hidden = hidden;
      if (!hidden) count++;
    });
    for (const group of groups) group.hidden = wanted !== '' && !group.querySelector('.entry:not([hidden])');
    told.textContent = wanted === '' ? '' : `${count} of ${entries.length}`;
  };
  let waiting = 0;
  box.addEventListener('input', () => {
    clearTimeout(waiting);
    waiting = setTimeout(search, 100);
  });
  form.addEventListener('submit', event => event.preventDefault());
  form.querySelector('.open').addEventListener('click', () => shown().forEach(entry => { entry.open = true; }));
  form.querySelector('.close').addEventListener('click', () => shown().forEach(entry => { entry.open = false; }));
  const go = entry => { if (entry) entry.firstElementChild.focus(); };
  document.addEventListener('keydown', event => {
    if (event.ctrlKey || event.altKey || event.metaKey) return;
    const entry = event.target.closest && event.target.closest('.entry');
    const step = { ArrowDown: 1, ArrowUp: -1 }[event.key];
    if (event.key === '/' && event.target !== box) box.focus();
    else if (event.target === box && event.key === 'Escape') { box.value = ''; search(); }
    else if (event.target === box && step === 1) go(shown()[0]);
    else if (entry && step) {
      const row = shown(), at = row.indexOf(entry) + step;
      if (at < 0) box.focus(); else go(row[at]);
    } else return;
    event.preventDefault();
  });
  form.hidden = entries.length === 0;
})();
