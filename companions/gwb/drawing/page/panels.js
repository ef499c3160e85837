'use strict';
// The panels: the list of solids, the steps, what is picked or measured, and the tools. Each takes the page's state as `app`.
const Panels = (() => {
  const at = id => document.getElementById(id);
  const MOST_ROWS = 5000;

  function element(name, text, parent, made = {}, named = {}) {
    const it = Object.assign(document.createElement(name), made);
    for (const [key, value] of Object.entries(named)) it.setAttribute(key, value);
    it.textContent = text;
    parent.append(it);
    return it;
  }

  // Says something in the live line.
  function say(text) {
    at('said').textContent = text;
  }

  // Copies a text, and says so.
  async function copy(app, text, before = '') {
    const aside = () => {
      const back = document.activeElement, area = element('textarea', text, document.body);
      area.select();
      const isDone = document.execCommand('copy');
      area.remove();
      back.focus();
      return isDone;
    };
    app.state.copied = text;
    const isDone = navigator.clipboard && isSecureContext ? await navigator.clipboard.writeText(text).then(() => true, aside) : aside();
    if (app.state.copied === text) say(`${before}${isDone ? 'copied' : 'not copied:'} ${text}`);
  }

  // --- the list of solids
  const nameOf = (app, key) => app.data.names && app.data.names[key] ? ` ${app.data.names[key]}` : '';

  function solidRow(app, solid) {
    const row = element('li', '', at('solids')), name = `solid ${solid}`;
    const box = element('input', '', row, {type: 'checkbox', tabIndex: -1, onchange: () => app.turnOff([solid], !box.checked)}, {'aria-label': `show ${name}`});
    element('span', '', row, {className: 'swatch'}).style.background = app.css(app.colourOf(-solid));
    element('button', name + nameOf(app, 's' + solid), row, {className: 'name', tabIndex: -1, onclick: () => app.choose({kind: 's', number: solid})});
    element('button', 'only', row, {tabIndex: -1, title: `${name} alone, or all again`, onclick: () => app.isolate(solid)}, {'aria-label': `only ${name}`});
    return row;
  }

  // Makes the list anew where the solids are others, and shows which are switched off.
  function showList(app) {
    const {solids, state} = app, key = solids.join();
    at('list-button').textContent = `solids (${solids.length})`;
    at('apart-row').hidden = document.querySelector('[data-key=a]').hidden = solids.length < 2;
    if (app.listed !== key) {
      app.listed = key;
      at('solids').replaceChildren();
      solids.slice(0, MOST_ROWS).forEach(solid => solidRow(app, solid));
      if (solids.length > MOST_ROWS) element('li', `and ${solids.length - MOST_ROWS} more`, at('solids'));
      search();
    }
    [...at('solids').querySelectorAll('input')].forEach((box, i) => { box.checked = !state.off.has(solids[i]); });
  }

  const shownRows = () => [...at('solids').children].filter(row => !row.hidden && row.firstElementChild);

  // Leaves the rows that have the words of the search, and makes the first one the way into the list.
  function search() {
    const words = at('search').value.toLowerCase().split(/\s+/).filter(Boolean);
    for (const row of at('solids').children) {
      const text = row.textContent.toLowerCase(), numbers = text.match(/\d+/g) || [];
      row.hidden = !words.every(word => /^\d+$/.test(word) ? numbers.some(number => number.startsWith(word)) : text.includes(word));
    }
    const controls = [...at('solids').querySelectorAll('input, button')];
    for (const control of controls) control.tabIndex = -1;
    const [first] = shownRows();
    if (first) first.firstElementChild.tabIndex = 0;
  }

  // The arrows go from row to row of the list and along a row; the tabulator leaves it.
  function walkList(event) {
    const way = {ArrowDown: [1, 0], ArrowUp: [-1, 0], ArrowRight: [0, 1], ArrowLeft: [0, -1]}[event.key];
    const row = event.target.closest('li');
    if (!way || !row) return;
    event.preventDefault();
    event.stopPropagation();
    const rows = shownRows(), next = rows[rows.indexOf(row) + way[0]] || row, controls = it => [...it.querySelectorAll('input, button')];
    const place = controls(row).indexOf(event.target) + way[1], control = controls(next)[Math.max(0, Math.min(2, place))];
    event.target.tabIndex = -1;
    control.tabIndex = 0;
    control.focus();
  }

  function startList(app) {
    const shown = () => { const rows = new Set(shownRows()); return app.solids.filter((_, i) => rows.has(at('solids').children[i])); };
    at('search').oninput = search;
    at('all').onclick = () => app.turnOff(shown(), false);
    at('none').onclick = () => app.turnOff(shown(), true);
    at('solids').addEventListener('keydown', walkList);
    at('list-button').onclick = () => fold(app, 'list');
    at('list-close').onclick = () => {
      fold(app, 'list', false);
      at('list-button').focus();
    };
    at('steps-button').onclick = () => fold(app, 'steps');
  }

  // Shows a panel or folds it away, and refits the model beside it.
  function fold(app, name, isShown = at(name).hidden) {
    at(name).hidden = !isShown;
    at(name + '-button').setAttribute('aria-expanded', isShown);
    if (isShown && name === 'steps') showStep(app);
    app.refit();
  }

  // --- what is picked
  function sideOf({model, scene}, half) {
    const {face, loop} = scene.sides.of(half), sign = half > 0 ? '+' : '';
    const [from, to] = half > 0 ? model.edges[half] : [...model.edges[-half]].reverse();
    return [sign + half, `from vertex ${from} to ${to}, in loop ${loop} of face ${face}`];
  }

  function solidOfVertex({model}, number) {
    const meets = ([, halves, lone]) => lone === number || halves.some(half => model.edges[Math.abs(half)].includes(number));
    return Object.values(model.faces).find(([, loops]) => loops.some(meets))[0];
  }

  const KINDS = {v: 'vertex', e: 'edge', f: 'face', s: 'solid'};
  const title = (app, {kind, number}) => `${KINDS[kind]} ${number}${nameOf(app, kind + number)}`;
  const measured = rows => rows.map(([name, value]) => ['', name ? `${name} ${value}` : value]);

  // A point in coordinates of scripts, where these are no millimetres.
  const lattice = (app, point) => app.data.unit ? [[point.join(' '), `in scripts ${point.join(' ')}`, 'copy']] : [];

  // Lines about a thing: a word to copy or nothing, a text, and what is on the button if it isn't the word.
  function about(app, {kind, number}) {
    const {model, scene} = app;
    if (kind === 's') return measured(Measure.solid(model, number));
    if (kind === 'v') return [[String(number), `vertex of solid ${solidOfVertex(app, number)} at ${model.vertices[number].map(Measure.place).join(' ')} mm`], ...lattice(app, model.vertices[number])];
    if (kind === 'e') {
      const [a, b] = model.edges[number].map(v => model.vertices[v].map(Measure.place).join(' '));
      return [sideOf(app, number), sideOf(app, -number), ['', `edge ${number} of solid ${scene.sides.of(number).solid}, from ${a} to ${b} mm`],
              ...measured(Measure.own(model, {kind, number}))];
    }
    const [solid, loops, plane, isFlat] = model.faces[number];
    const rows = loops.map(([loop, halves, vertex], i) => [vertex ? '@' + loop : '', `${i ? 'ring' : 'outer loop'} ${loop}: `
      + (vertex ? `vertex ${vertex}` : halves.map(h => (h > 0 ? '+' : '') + h).join(' '))]);
    return [[String(number), `face of solid ${solid}${nameOf(app, 's' + solid)}`], [plane.join(' '), `plane ${Measure.plane(plane)}${isFlat ? '' : ', bent'}`, 'copy'],
            ...(isFlat ? measured(Measure.own(model, {kind, number})) : []), ...rows];
  }

  // Lines about what is measured: one thing, or what lies between two.
  function aboutMeasured(app) {
    const things = app.state.measured, lines = things.map(it => ['', title(app, it)]);
    if (things.length < 2) return [...lines, ['', things.length ? 'pick a second thing' : 'pick two things: faces, edges or vertices']];
    return [...lines, ...measured(Measure.between(app.model, ...things))];
  }

  function solidOf(app, {kind, number}) {
    return kind === 's' ? null : kind === 'f' ? app.model.faces[number][0] : kind === 'e' ? app.scene.sides.of(number).solid : solidOfVertex(app, number);
  }

  function showInfo(app) {
    const {picked, measured: things} = app.state, panel = at('info'), hadFocus = panel.contains(document.activeElement);
    const wasHidden = panel.hidden;
    panel.hidden = !picked && !things;
    at('facts').replaceChildren();
    at('facts').scrollTop = 0;
    if (panel.hidden && !wasHidden) app.refit();
    if (panel.hidden) return hadFocus && at('labels').focus();
    at('what').textContent = things ? 'measure' : title(app, picked);
    for (const [word, text, label = word] of things ? aboutMeasured(app) : about(app, picked)) {
      const row = element('div', '', at('facts'));
      if (word) element('button', label, row, {title: 'copy', onclick: () => copy(app, word)}, {'aria-label': `copy ${word}`});
      row.append(text);
    }
    const solid = things ? null : solidOf(app, picked);
    Object.assign(at('info-solid'), {hidden: !solid, textContent: `solid ${solid}`, onclick: () => app.choose({kind: 's', number: solid})});
    at('info-hide').hidden = Boolean(things);
    app.refit();
  }

  function startInfo(app) {
    at('info-close').onclick = () => app.unpick();
    at('info-hide').onclick = () => app.hidePicked();
    at('info-fold').onclick = () => {
      at('facts').hidden = !at('facts').hidden;
      at('info-fold').textContent = at('facts').hidden ? 'unfold' : 'fold';
      at('info-fold').setAttribute('aria-expanded', !at('facts').hidden);
      app.refit();
    };
  }

  // --- steps
  function startSteps(app) {
    const {frames} = app.data;
    at('player').hidden = at('steps-button').hidden = false;
    at('slider').max = app.rows.length - 1;
    at('slider').oninput = event => app.go(app.rows[+event.target.value].last);
    at('back').onclick = () => app.go(app.rowFrom(-1));
    at('forth').onclick = () => app.go(app.rowFrom(1));
    at('play').onclick = () => app.play();
    app.rows.forEach((row, i) => stepRow(app, row, i));
    at('steps').addEventListener('keydown', event => {
      const step = {ArrowDown: app.rowFrom(1), ArrowUp: app.rowFrom(-1), Home: 0, End: frames.length - 1}[event.key];
      if (step === undefined) return;
      event.preventDefault();
      event.stopPropagation();
      app.go(step);
    });
  }

  // What was replied to a command: a refusal in words; that it was accepted is the rule, and isn't said.
  function replyRow(frame, parent) {
    if (frame.line && frame.reply !== 'ok') element('small', '\n' + frame.reply, parent, {className: frame.bad ? 'bad' : ''});
  }

  // A row of the list of steps. Of several commands they are within it, made when they are first unfolded.
  function stepRow(app, {name, first, last}, place) {
    const row = element('div', name, at('steps'), {id: `step-${place}`, onclick: () => app.go(last)}, {role: 'option'}), {frames} = app.data;
    if (first === last) return replyRow(frames[first], row);
    const bad = frames.slice(first, last + 1).find(frame => frame.bad), inner = element('div', '', row, {hidden: true});
    const named = {'aria-expanded': false, 'aria-label': `the commands of ${name}`};
    const fold = element('button', `${last - first + 1}`, row, {title: 'the commands', tabIndex: -1}, named);
    if (bad) replyRow(bad, row);
    row.prepend(fold);
    row.append(inner);
    fold.onclick = event => {
      event.stopPropagation();
      if (!inner.firstChild) frames.slice(first, last + 1).forEach((frame, i) => {
        const line = element('p', frame.line, inner, {onclick: it => { it.stopPropagation(); app.go(first + i); }});
        replyRow(frame, line);
      });
      inner.hidden = !inner.hidden;
      fold.setAttribute('aria-expanded', !inner.hidden);
    };
  }

  // Marks the row of the step that is shown; the rows after it are pale.
  function showStep({rowNow}) {
    const rows = at('steps').children, place = rowNow(), now = rows[place];
    at('slider').value = place;
    [...rows].forEach((row, i) => { row.className = i === place ? 'now' : i > place ? 'past' : ''; row.setAttribute('aria-selected', i === place); });
    if (!now) return;
    at('steps').setAttribute('aria-activedescendant', now.id);
    now.scrollIntoView({block: 'nearest'});
  }

  // --- tools
  function showTools({state, EDGES}) {
    const set = (key, name, value) => document.querySelector(`[data-key="${key}"]`).setAttribute(name, value);
    set('h', 'aria-pressed', state.isHidden);
    set('x', 'aria-pressed', state.isXray);
    set('p', 'aria-pressed', state.isPerspective);
    set('m', 'aria-pressed', Boolean(state.measured));
    set('a', 'aria-pressed', state.apart > 0);
    set('c', 'aria-expanded', Boolean(state.cut));
    set('?', 'aria-expanded', !at('help').hidden);
    document.querySelector('[data-key=n] span').textContent = `numbers: ${['near', 'all', 'none'][state.numbers]}`;
    document.querySelector('[data-key=e] span').textContent = `edges: ${EDGES[state.edges].name}`;
  }

  // Opens or closes the drawer of tools that a small window has; the model has the room that it leaves.
  function openTools(app, isOpen) {
    if ((at('tools-button').getAttribute('aria-expanded') === 'true') === isOpen) return;
    document.querySelector('header').classList.toggle('open', isOpen);
    at('tools-button').setAttribute('aria-expanded', isOpen);
    app.refit();
  }

  function startTools(app, keys) {
    for (const button of document.querySelectorAll('[data-key]')) {
      button.onclick = () => {
        keys[button.dataset.key]();
        openTools(app, false);
        showTools(app);
        app.ask();
      };
    }
    at('tools-button').onclick = () => openTools(app, at('tools-button').getAttribute('aria-expanded') !== 'true');
    at('help-close').onclick = () => {
      keys['?']();
      showTools(app);
      at('labels').focus();
    };
  }

  // --- the triad: buttons at the ends of the axes, each of which looks along its axis
  const AXES = ['x', 'y', 'z'].flatMap((name, axis) => [1, -1].map(sign => ({name, axis, sign})));

  function startTriad(app) {
    for (const {name, axis, sign} of AXES) {
      const label = `view from ${sign < 0 ? '-' : '+'}${name}`, turn = [[0, 0], [Math.PI / 2, 0], [-Math.PI / 2, Math.PI / 2]][axis];
      const to = axis === 2 ? {turn: turn[0], lift: sign * turn[1]} : {turn: turn[0] + (sign < 0 ? Math.PI : 0), lift: 0};
      if (sign > 0) element('i', '', at('triad'), {className: name});
      element('button', sign < 0 ? '-' + name : name, at('triad'), {className: name + (sign < 0 ? ' back' : ''), title: label, onclick: () => app.aim(to)}, {'aria-label': label});
    }
  }

  function showTriad({right, up, stand}) {
    const ends = at('triad').querySelectorAll('button'), lines = at('triad').querySelectorAll('i');
    AXES.forEach(({axis, sign}, i) => {
      const [x, y, z] = [34 * sign * right[axis], -34 * sign * up[axis], Math.round(10 + 9 * sign * stand[axis])];
      Object.assign(ends[i].style, {left: `${48 + x}px`, top: `${48 + y}px`, zIndex: z});
      if (sign > 0) Object.assign(lines[axis].style, {width: `${Math.hypot(x, y)}px`, transform: `rotate(${Math.atan2(y, x)}rad)`, zIndex: Math.min(z, 10)});
    });
  }

  return {at, element, say, copy, title, solidOf, fold, showList, startList, showInfo, startInfo, startSteps, showStep, showTools, startTools, startTriad, showTriad};
})();
