// The least contrast between a text and its background.
(() => {
  const canvas = document.createElement('canvas').getContext('2d', { willReadFrequently: true });
  const pixel = colours => {
    canvas.fillStyle = 'white';
    canvas.fillRect(0, 0, 1, 1);
    for (const colour of colours) { canvas.fillStyle = colour; canvas.fillRect(0, 0, 1, 1); }
    return [...canvas.getImageData(0, 0, 1, 1).data].slice(0, 3);
  };
  const light = rgb => rgb.map(v => v / 255).map(v => v <= .04045 ? v / 12.92 : ((v + .055) / 1.055) ** 2.4)
    .reduce((sum, v, i) => sum + v * [.2126, .7152, .0722][i], 0);
  let least = 99, where = '';
  for (const element of document.querySelectorAll('h1, h2, h2 small, h3, h3 small, .overview, .notes li, button, .fields, .came, .remark, .cut, .run, pre, figcaption span, code, td, em, .legend p')) {
    const behind = [];
    for (let at = element; at; at = at.parentElement) behind.unshift(getComputedStyle(at).backgroundColor);
    const ground = light(pixel(behind)), ink = light(pixel([...behind, getComputedStyle(element).color]));
    const contrast = (Math.max(ground, ink) + .05) / (Math.min(ground, ink) + .05);
    if (contrast < least) [least, where] = [contrast, element.tagName + '.' + element.className];
  }
  return { least, where, paper: light(pixel([getComputedStyle(document.body).backgroundColor])) };
})()
