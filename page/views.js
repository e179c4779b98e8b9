// Which part of a run is seen, behind a key.

// Gives where a view of so many of all slots begins, and how many it has, behind a key; `place` is where in the view it zooms, from 0 to 1.
export function moved({ from, count }, key, all, place = 0.5) {
  const part = Math.max(1, Math.floor(count / 4));
  const zoomed = (size) => [from + Math.round((count - size) * place), size];
  const views = {
    ArrowRight: [from + part, count],
    ArrowLeft: [from - part, count],
    Home: [0, count],
    End: [all, count],
    "+": zoomed(Math.max(4, Math.ceil(count / 2))),
    "-": zoomed(Math.min(all, count * 2)),
  };
  const [begin, size] = views[key] ?? [from, count];
  const kept = Math.min(Math.max(size, 1), Math.max(all, 1));
  return { from: Math.min(Math.max(begin, 0), Math.max(all - kept, 0)), count: kept };
}

// How many exchanges have their waves drawn at once.
export const EXCHANGES = 6;

// Gives the first exchange, counted from 0, and the zoom of the waves behind a key.
export function wavesMoved({ first, zoom }, key, all) {
  const begin = { PageDown: first + EXCHANGES, PageUp: first - EXCHANGES, Home: 0, End: all }[key] ?? first;
  const size = { "+": zoom * 1.5, "-": zoom / 1.5 }[key] ?? zoom;
  return { first: Math.min(Math.max(begin, 0), Math.max(all - EXCHANGES, 0)), zoom: Math.min(Math.max(size, 0.05), 20) };
}
