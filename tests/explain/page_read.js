// The texts of the elements of a page, in the order of the page.
(() => {
  const text = element => element.textContent.replace(/\s+/g, ' ').trim();
  const lanes = table => table && [...table.querySelectorAll('td')].map(cell => [cell.className.replace('here', '').trim(), cell.textContent]);
  const heading = element => element.querySelector('h3') ? element : element.closest('.message').querySelector('summary');
  const beat = element => ({
    far: element.className === 'far', line: element.querySelector('code').textContent, corrupt: !!element.querySelector('em'),
    lanes: lanes(element.querySelector('table')),
  });
  return {
    title: document.title, answer: document.querySelector('.answer')?.textContent ?? null, fault: document.querySelector('.fault')?.textContent ?? null,
    lines: [...document.querySelectorAll('.beat, .run')].map(element => element.matches('.run')
      ? { run: text(element) }
      : { line: text(heading(element).querySelector('small')).replace(/ to \d+(?=$|, time )/, ''), name: text(heading(element).querySelector('h3')).replace(/ line \d+( to \d+)?(, time .*)?$/, ''),
          fields: text(heading(element).querySelector('.fields')), came: text(element.querySelector('.came')), id: element.id,
          beats: [...element.querySelectorAll('figure')].map(beat),
          remarks: [...element.querySelectorAll('.remark')].map(text), exchange: element.closest('.message').dataset.exchange ?? null }),
    messages: [...document.querySelectorAll('.message')].map(message => ({
      ids: [...message.querySelectorAll('.beat')].map(beat => beat.id), open: message.open, height: message.offsetHeight,
      channel: message.className.at(-1), exchange: message.dataset.exchange ?? null,
      seen: [...message.querySelectorAll('.beat')].filter(beat => beat.checkVisibility()).length })),
    overview: document.querySelector('.overview')?.textContent ?? null,
    cuts: [...document.querySelectorAll('.cut')].map(text),
    problems: [...document.querySelectorAll('.problems li')].map(text), width: document.documentElement.scrollWidth,
    links: [...document.querySelectorAll('a')].map(link => [link.textContent, link.getAttribute('href'), !!document.querySelector(link.getAttribute('href'))]),
  };
})()
