// A source in the part of an address behind the sign #, which is sent to nobody.

const PREFIX = '#source=';

export function fragmentOf(source) {
  const bytes = new TextEncoder().encode(source);
  let letters = '';
  for (const byte of bytes) letters += String.fromCharCode(byte);
  return PREFIX + btoa(letters).replaceAll('+', '-').replaceAll('/', '_').replaceAll('=', '');
}

// The source that a fragment holds, or null where it holds none.
export function sourceOf(fragment) {
  if (!fragment.startsWith(PREFIX)) return null;
  try {
    const letters = atob(fragment.slice(PREFIX.length).replaceAll('-', '+').replaceAll('_', '/'));
    return new TextDecoder('utf-8', { fatal: true }).decode(Uint8Array.from(letters, (letter) => letter.charCodeAt(0)));
  } catch {
    return null;
  }
}
