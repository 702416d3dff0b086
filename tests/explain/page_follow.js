// Each byte of a near beat, followed: how many there were, and those whose lanes on the other side do not have the same byte.
(() => {
  let followed = 0;
  const wrong = [];
  for (const cell of [...document.querySelectorAll('.near table[data-message] td:not([class])')].slice(0, 600)) {
    cell.dispatchEvent(new PointerEvent('pointerover', { bubbles: true }));
    const here = [...document.querySelectorAll('.here')];
    followed += 1;
    if (!here.includes(cell) || here.some(other => other.textContent !== cell.textContent && other.className !== 'masked here') ||
        !document.querySelector('output').textContent.startsWith('byte '))
      wrong.push(cell.textContent + ' to ' + here.map(other => other.textContent));
    const far = [...document.querySelectorAll(`.far table[data-message="${cell.closest('table').dataset.message}"]`)];
    const byte = +/byte (\d+)/.exec(document.querySelector('output').textContent)?.[1];
    const due = far.filter(table => +table.dataset.byte <= byte && byte < +table.dataset.byte + +table.dataset.count).length;
    if (here.filter(other => other.closest('.far')).length !== due) wrong.push(`byte ${byte} has ${due} far lanes`);
  }
  // the lane of the first byte is that of the message's address: its own, or that of the request that it answers
  const address = beat => /at 0x([0-9a-f]+)/.exec(beat.closest('.message').querySelector('.fields').textContent)?.[1];
  for (const table of document.querySelectorAll('table[data-message]')) {
    const first = document.getElementById('line-' + table.dataset.message), asked = first?.querySelector('.came a');
    const home = first && (address(first) ?? (asked && address(document.querySelector(asked.getAttribute('href')))));
    const width = BigInt(table.querySelectorAll('td').length);
    if (home && (BigInt('0x' + home) + BigInt(table.dataset.byte)) % width !== BigInt(table.dataset.lane))
      wrong.push(`a first byte on lane ${table.dataset.lane} of the message at ${home}`);
  }
  document.body.dispatchEvent(new PointerEvent('pointerover', { bubbles: true }));
  return { followed, wrong, left: document.querySelectorAll('.here, .lit').length };
})()
