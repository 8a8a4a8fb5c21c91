// A node shows its piece of the source, and a token of the source its nodes: under the pointer, in focus, or kept by a click.
(() => {
  const tokens = [...document.querySelectorAll('.token')];
  const trees = [...document.querySelectorAll('.tree')].map(tree => [...tree.children]);
  const said = document.querySelector('.piece');
  const numbers = (item, name) => (item.dataset[name] || '').split(' ').filter(Boolean).map(Number);
  // The nodes whose own token each token is, in each tree.
  const owners = trees.map(tree => {
    const owner = [];
    for (const node of tree) for (const token of numbers(node, 'own')) owner[token] = node;
    return owner;
  });
  // A token that no node has for its own lies in the least node that reaches over it.
  const nodeOf = (place, token) => owners[place][token] || trees[place].filter(node => {
    const [start, end] = numbers(node, 'tokens');
    return start <= token && token < end;
  }).pop();
  let lit = [], kept = null;
  const light = (item, name) => {
    if (item) { item.classList.add(name); lit.push([item, name]); }
  };
  const showNode = node => {
    const [start, end] = numbers(node, 'tokens'), own = numbers(node, 'own');
    for (let token = start; token < end; token++) light(tokens[token], own.includes(token) ? 'own' : 'lit');
    light(node, 'own');
    const tree = node.parentElement;
    trees.forEach((other, place) => {
      if (own.length && other[0] && other[0].parentElement !== tree) light(owners[place][own[0]], 'lit');
    });
    const piece = tokens.slice(start, end).map(token => {
      const text = token.firstChild ? token.firstChild.textContent : '';
      return text + (token.nextElementSibling ? token.nextElementSibling.textContent : '');
    });
    return piece.join('').trim();
  };
  const showToken = token => {
    light(token, 'own');
    const nodes = trees.map((_, place) => nodeOf(place, Number(token.dataset.token)));
    nodes.forEach(node => light(node, 'lit'));
    return nodes.filter(Boolean).map(node => node.querySelector('.label').firstChild.textContent).slice(0, 1).join('');
  };
  const show = item => {
    for (const [old, name] of lit) old.classList.remove(name);
    lit = [];
    said.textContent = !item ? '' : item.classList.contains('node') ? showNode(item) : showToken(item);
  };
  const itemOf = event => event.target.closest && event.target.closest('.node, .token');
  document.addEventListener('pointerover', event => { if (itemOf(event)) show(itemOf(event)); });
  document.addEventListener('pointerout', event => { if (itemOf(event)) show(kept); });
  document.addEventListener('focusin', event => { if (itemOf(event)) show(itemOf(event)); });
  document.addEventListener('focusout', event => { if (itemOf(event)) show(kept); });
  const keep = item => {
    kept = kept === item ? null : item;
    show(kept);
    // What was clicked stays where it is; what it shows is brought into view.
    const others = lit.map(([other]) => other).filter(other => other !== item);
    for (const other of [others[0], others.find(other => other.classList.contains('node'))]) {
      if (other && kept) other.scrollIntoView({ block: 'nearest', inline: 'nearest' });
    }
  };
  document.addEventListener('click', event => { if (itemOf(event)) keep(itemOf(event)); });
  // One item of a tree, and of the source, is reached by the tabulator; arrows lead on from there.
  const move = (from, to) => {
    if (!to) return;
    from.tabIndex = -1;
    to.tabIndex = 0;
    to.focus();
  };
  const depth = node => Number(node.getAttribute('aria-level'));
  const next = (item, key) => {
    const isNode = item.classList.contains('node');
    const row = isNode ? [...item.parentElement.children] : tokens, at = row.indexOf(item);
    if (key === 'Home') return row[0];
    if (key === 'End') return row[row.length - 1];
    if (key === (isNode ? 'ArrowDown' : 'ArrowRight')) return row[at + 1];
    if (key === (isNode ? 'ArrowUp' : 'ArrowLeft')) return row[at - 1];
    if (isNode && key === 'ArrowRight') return row[at + 1] && depth(row[at + 1]) > depth(item) ? row[at + 1] : null;
    if (isNode && key === 'ArrowLeft') return row.slice(0, at).reverse().find(above => depth(above) < depth(item));
    return undefined;
  };
  document.addEventListener('keydown', event => {
    if (event.key === 'Escape') { kept = null; show(null); return; }
    const item = itemOf(event);
    if (!item || event.ctrlKey || event.altKey || event.metaKey) return;
    if (event.key === 'Enter' || event.key === ' ') { keep(item); event.preventDefault(); return; }
    const to = next(item, event.key);
    if (to !== undefined) { move(item, to); event.preventDefault(); }
  });
})();
