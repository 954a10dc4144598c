// Pictures: a pen that draws on a canvas or writes SVG, and the axes of a chart.
class CanvasPen {
  constructor(canvas) {
    const scale = globalThis.devicePixelRatio || 1;
    [this.wide, this.high] = [canvas.clientWidth, canvas.clientHeight];
    canvas.width = this.wide * scale;
    canvas.height = this.high * scale;
    this.context = canvas.getContext('2d');
    this.context.scale(scale, scale);
    this.style = getComputedStyle(document.documentElement);
  }
  color(name) { return this.style.getPropertyValue('--' + name).trim(); }
  rect(x, y, wide, high, color) {
    this.context.fillStyle = this.color(color);
    this.context.fillRect(x, y, wide, high);
  }
  line(points, color, wide = 1.4, dashes = []) {
    const { context } = this;
    context.strokeStyle = this.color(color);
    context.lineWidth = wide;
    context.setLineDash(dashes);
    context.beginPath();
    for (const [x, y] of points) context.lineTo(x, y);
    context.stroke();
  }
  text(x, y, text, color = 'quiet', align = 'left') {
    this.context.font = '12px sans-serif';
    this.context.textAlign = align;
    this.context.fillStyle = this.color(color);
    this.context.fillText(text, x, y);
  }
}

class SvgPen {
  constructor(wide, high, title) {
    Object.assign(this, { wide, high, style: getComputedStyle(document.documentElement) });
    this.parts = [`<svg xmlns="http://www.w3.org/2000/svg" width="${wide}" height="${high}" font-family="sans-serif" font-size="12"><title>${plain(title)}</title>`];
    this.rect(0, 0, wide, high, 'page');
  }
  color(name) { return this.style.getPropertyValue('--' + name).trim(); }
  rect(x, y, wide, high, color) {
    this.parts.push(`<rect x="${x.toFixed(1)}" y="${y.toFixed(1)}" width="${wide.toFixed(1)}" height="${high.toFixed(1)}" fill="${this.color(color)}"/>`);
  }
  line(points, color, wide = 1.4, dashes = []) {
    const path = points.map(([x, y]) => `${x.toFixed(1)},${y.toFixed(1)}`).join(' ');
    this.parts.push(`<polyline points="${path}" fill="none" stroke="${this.color(color)}" stroke-width="${wide}" stroke-dasharray="${dashes}"/>`);
  }
  text(x, y, text, color = 'quiet', align = 'left') {
    const anchor = { left: 'start', center: 'middle', right: 'end' }[align];
    this.parts.push(`<text x="${x.toFixed(1)}" y="${y.toFixed(1)}" fill="${this.color(color)}" text-anchor="${anchor}">${plain(text)}</text>`);
  }
  whole() { return [...this.parts, '</svg>\n'].join('\n'); }
}

const plain = text => String(text).replace(/[&<>"]/g, sign => `&#${sign.charCodeAt(0)};`);
const grouped = value => Math.abs(value) < 10 && value % 1 ? String(Number(value.toPrecision(3))) : Math.round(value).toLocaleString('en');

// Returns the least round step by which `span` has at most `most` parts.
function stepOf(span, most) {
  for (let power = 10 ** Math.floor(Math.log10(Math.max(span, 1e-9) / most)); ; power *= 10)
    for (const digit of [1, 2, 5]) if (span / (digit * power) <= most) return digit * power;
}

const LEFT = 64, RIGHT = 12, HEAD = 20;

// One panel of a chart: a place on the page with a time axis and a scale.
class Panel {
  constructor(pen, top, high, span, most) {
    Object.assign(this, { pen, top, high, span, most: Math.max(most, 1) * 1.06 });
    this.foot = top + high;
    this.room = pen.wide - LEFT - RIGHT;
  }
  x(moment) { return LEFT + (moment - this.span[0]) / (this.span[1] - this.span[0]) * this.room; }
  y(value) { return this.foot - value / this.most * (this.high - HEAD); }
  frame(title, unit) {
    const { pen } = this, step = Math.max(stepOf(this.most, 4), 1);
    for (let value = 0; value <= this.most; value += step) {
      pen.rect(LEFT, this.y(value), this.room, 0.6, 'line');
      pen.text(LEFT - 6, this.y(value) + 4, grouped(value), 'quiet', 'right');
    }
    pen.text(LEFT, this.top + 12, title, 'text');
    if (unit) pen.text(pen.wide - RIGHT, this.top + 12, unit, 'quiet', 'right');
  }
  times(unit) {
    const { pen, span } = this, step = stepOf(span[1] - span[0], Math.max(2, this.room / 90));
    for (let moment = Math.ceil(span[0] / step) * step; moment <= span[1]; moment += step)
      pen.text(Math.min(this.x(moment), pen.wide - 30), this.foot + 15, grouped(moment), 'quiet', 'center');
    pen.text(pen.wide - RIGHT, this.foot + 30, unit, 'quiet', 'right');
  }
  // Draws a level that changes at these moments; of many in a pixel the lowest and the highest.
  level(moments, values, color, isFilled) {
    const points = [];
    let last = 0, pixel = -1, low = Infinity, high = -Infinity;
    const end = () => {
      if (high < low) return;
      points.push([pixel, this.y(low)], [pixel, this.y(high)], [pixel, this.y(last)]);
    };
    for (let place = 0; place < values.length; place++) {
      if (Number.isNaN(values[place])) continue;
      const x = Math.max(Math.round(this.x(moments[place])), LEFT - 1);
      if (x > LEFT + this.room) continue;
      if (x < LEFT) { // the level at which the span begins
        [pixel, low, high, last] = [LEFT, values[place], values[place], values[place]];
        continue;
      }
      if (x !== pixel) {
        end();
        if (high >= low) points.push([x, this.y(last)]);
        [pixel, low, high] = [x, values[place], values[place]];
      }
      low = Math.min(low, values[place]);
      high = Math.max(high, values[place]);
      last = values[place];
    }
    end();
    if (!points.length) return;
    points.push([LEFT + this.room, this.y(last)]);
    if (isFilled)
      for (let place = 1; place < points.length; place++) {
        const [[x, y], [to]] = [points[place - 1], points[place]];
        this.pen.rect(x, y, Math.max(to - x, 1), Math.max(this.foot - y, 0), color);
      }
    else this.pen.line(points, color);
  }
  // Draws the highest bar of each pixel.
  bars(moments, values, color, wide = 1.6) {
    const highest = new Map();
    for (let place = 0; place < values.length; place++) {
      const x = this.x(moments[place]);
      if (!(values[place] > 0) || x < LEFT - 1 || x > LEFT + this.room + 1) continue;
      const pixel = Math.round(x * 2) / 2;
      if (!(highest.get(pixel) >= values[place])) highest.set(pixel, values[place]);
    }
    for (const [x, value] of highest) this.pen.rect(x - wide / 2, this.y(value), wide, this.foot - this.y(value), color);
    return highest;
  }
}
