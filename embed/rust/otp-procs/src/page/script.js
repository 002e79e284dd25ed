'use strict';
(() => {
  const main = document.querySelector('main');
  const link = document.getElementById('link');
  // How far this clock is ahead of the daemon's.
  const ahead = Date.now() - Number(main.dataset.now);
  let mark = main.dataset.mark;
  let wanted = '';

  const say = (text, isDown) => {
    link.textContent = text;
    link.className = isDown ? 'down' : '';
  };

  const span = (milliseconds) => {
    const seconds = Math.floor(milliseconds / 1000);
    const [minutes, hours, days] = [60, 3600, 86400].map((unit) => Math.floor(seconds / unit));
    if (days) return `${days} d ${hours % 24} h`;
    if (hours) return `${hours} h ${minutes % 60} min`;
    return minutes ? `${minutes} min ${seconds % 60} s` : `${seconds} s`;
  };

  const tellTimes = (within) => {
    for (const time of within.querySelectorAll('time')) {
      const at = Date.parse(time.dateTime);
      const text = span(Math.abs(Date.now() - ahead - at));
      if (time.textContent !== text) time.textContent = text;
      if (!time.title) time.title = new Date(at).toLocaleString();
    }
  };

  const filter = (within) => {
    for (const kid of within.querySelectorAll('.kid')) {
      kid.hidden = !kid.querySelector('.name').title.includes(wanted);
    }
  };

  const settle = () => {
    document.title = document.getElementById('head').dataset.title;
    tellTimes(main);
    filter(main);
  };

  const factsOf = (part) => part.querySelector('.facts')?.textContent;

  // Puts a newer part in the place of the older one. Lines that were opened stay so.
  const put = (line) => {
    const made = document.createElement('template');
    made.innerHTML = line;
    const part = made.content.firstElementChild;
    const old = part && document.getElementById(part.id);
    if (!old) return;
    const [was, is] = [old, part].map((one) => one.querySelector('details'));
    if (was && is) is.open = was.open;
    if (factsOf(old) !== factsOf(part)) part.classList.add('fresh');
    old.replaceWith(part);
  };

  const putAll = (text) => {
    const opened = [...main.querySelectorAll('details[open]')].map((one) => one.parentElement.id);
    main.innerHTML = text;
    for (const id of opened) {
      const lines = document.getElementById(id)?.querySelector('details');
      if (lines) lines.open = true;
    }
  };

  const take = (change) => (event) => {
    change(event.data);
    mark = event.lastEventId || mark;
    say('follows', false);
    settle();
  };

  const follow = () => {
    const url = new URL('events', document.baseURI);
    url.search = location.search;
    url.searchParams.set('after', mark);
    const source = new EventSource(url);
    source.onopen = () => say('follows', false);
    source.onerror = () => {
      say('not connected; it is tried again', true);
      if (source.readyState === EventSource.CLOSED) setTimeout(follow, 3000);
    };
    source.addEventListener('parts', take((text) => text.split('\n').forEach(put)));
    source.addEventListener('whole', take(putAll));
    source.addEventListener('gone', (event) => say(event.data, true));
  };

  const find = document.createElement('input');
  find.id = 'find';
  find.type = 'search';
  find.placeholder = 'paths with ..';
  find.addEventListener('input', () => {
    wanted = find.value.trim();
    filter(main);
  });
  main.before(find);

  say('', false);
  settle();
  follow();
  setInterval(() => document.hidden || tellTimes(main), 1000);
})();
