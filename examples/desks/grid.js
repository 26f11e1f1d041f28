// Places: references as the room reads them, and the National Grid from latitude and longitude.
//
//   read('TQ 303 804')        { place: [530300, 180400] }
//   read('TQ30380')           { fault: 'length', words: 'A place has six, eight or ten digits.' }
//   reference([530300, 180400], 6)      'TQ303804'; 8 and 10 digits too; '' outside the squares
//   toTheMetre([532034, 180467])        'TQ 32034 80467', for people
//   gridOf(52.65798, 1.71605)           [651409.., 313177..] metres east and north, from WGS84
//   positionOf([651409, 313177])        the latitude and longitude of it
//   distance(place, other)    whole metres, rounded down, as the room has it
//
// The room's squares and its rule of spaces are docs/RULES.md, "Places". The transformation is the
// Ordnance Survey's of seven parameters ("A guide to coordinate systems in Great Britain"): it is
// good to some 5 m, which is less than a phone's position is.

const SQUARES = { TQ: [500000, 100000], TL: [500000, 200000], SU: [400000, 100000],
  SP: [400000, 200000] };
const SIDE = 100000; // metres

const FAULTS = {
  square: 'A place begins with TQ, TL, SU or SP.',
  digit: 'After its two letters a place has digits only.',
  length: 'A place has six, eight or ten digits.',
  spacing: 'A space may stand after the letters and between the halves only.',
};

// ---- references

/** The place of a reference in metres, or the first fault that the room would find. */
export function read(text) {
  const corner = Object.hasOwn(SQUARES, text.slice(0, 2)) ? SQUARES[text.slice(0, 2)] : null;
  const rest = text.slice(2);
  const digits = rest.replaceAll(' ', '');
  const half = digits.length / 2;
  if (!corner) return faulty('square');
  if (!/^[0-9 ]*$/.test(rest)) return faulty('digit');
  if (![3, 4, 5].includes(half)) return faulty('length');
  if (!new RegExp(`^ ?[0-9]{${half}} ?[0-9]{${half}}$`).test(rest)) return faulty('spacing');
  const metres = (part) => Number(part) * 10 ** (5 - half);
  return { place: [corner[0] + metres(digits.slice(0, half)),
    corner[1] + metres(digits.slice(half))] };
}

const faulty = (fault) => ({ fault, words: FAULTS[fault] });

/** A place as a reference of so many digits, without spaces; empty outside the room's squares. */
export function reference([east, north], digits = 6) {
  const isIn = ([west, south]) =>
    east >= west && east < west + SIDE && north >= south && north < south + SIDE;
  const found = Object.entries(SQUARES).find(([, corner]) => isIn(corner));
  if (!found) return '';
  const [letters, [west, south]] = found;
  const half = digits / 2;
  const part = (metres) =>
    String(Math.floor(metres / 10 ** (5 - half))).padStart(half, '0');
  return letters + part(east - west) + part(north - south);
}

/** A place as the room has it, to the metre; empty outside the room's squares. */
export const toTheMetre = (place) =>
  reference(place, 10).replace(/^(..)(.....)(.....)$/, '$1 $2 $3');

export function distance([east, north], [otherEast, otherNorth]) {
  return Math.floor(Math.sqrt((east - otherEast) ** 2 + (north - otherNorth) ** 2));
}

// ---- from latitude and longitude

const AIRY = { a: 6377563.396, b: 6356256.909 }; // Airy 1830, metres
const WGS84 = { a: 6378137, b: 6356752.3142 };
const SECOND = Math.PI / 180 / 3600; // radians
const DEGREE = Math.PI / 180;
const DEGREE_NORTH = 111200; // metres of a degree of latitude, some

// From WGS84 to OSGB36: metres, parts, radians.
const SHIFT = { x: -446.448, y: 125.157, z: -542.06, scale: 20.4894e-6,
  aboutX: -0.1502 * SECOND, aboutY: -0.247 * SECOND, aboutZ: -0.8421 * SECOND };

// The National Grid's projection.
const ORIGIN = { latitude: 49 * DEGREE, longitude: -2 * DEGREE, east: 400000, north: -100000,
  scale: 0.9996012717 };

const eccentricity = ({ a, b }) => 1 - (b * b) / (a * a);

/** Metres east and north on the National Grid of a position by satellite, in degrees. */
export function gridOf(latitude, longitude) {
  return project(...osgb36Of(latitude * DEGREE, longitude * DEGREE));
}

/** The position by satellite of metres on the National Grid, in degrees: what `gridOf` brings
    there, come nearer by as many degrees as it is off. */
export function positionOf([east, north]) {
  let [latitude, longitude] = [51.5, -0.5];
  for (let round = 0; round < 20; round += 1) {
    const [wide, high] = gridOf(latitude, longitude);
    latitude += (north - high) / DEGREE_NORTH;
    longitude += (east - wide) / (DEGREE_NORTH * Math.cos(latitude * DEGREE));
  }
  return [latitude, longitude];
}

/** WGS84 to OSGB36, both in radians, at the ellipsoid's height. */
function osgb36Of(latitude, longitude) {
  return anglesOf(shift(solidOf(latitude, longitude)));
}

/** Metres from the middle of the earth. */
function solidOf(latitude, longitude) {
  const e2 = eccentricity(WGS84);
  const v = WGS84.a / Math.sqrt(1 - e2 * Math.sin(latitude) ** 2);
  return [v * Math.cos(latitude) * Math.cos(longitude),
    v * Math.cos(latitude) * Math.sin(longitude), (1 - e2) * v * Math.sin(latitude)];
}

function shift([x, y, z]) {
  const { scale, aboutX, aboutY, aboutZ } = SHIFT;
  const larger = 1 + scale;
  return [SHIFT.x + larger * x - aboutZ * y + aboutY * z,
    SHIFT.y + aboutZ * x + larger * y - aboutX * z,
    SHIFT.z - aboutY * x + aboutX * y + larger * z];
}

/** The latitude by the guide's iteration, and the longitude, on Airy's ellipsoid. */
function anglesOf([x, y, z]) {
  const e2 = eccentricity(AIRY);
  const across = Math.hypot(x, y);
  let latitude = Math.atan2(z, across * (1 - e2));
  for (let round = 0; round < 10; round += 1) {
    const v = AIRY.a / Math.sqrt(1 - e2 * Math.sin(latitude) ** 2);
    latitude = Math.atan2(z + e2 * v * Math.sin(latitude), across);
  }
  return [latitude, Math.atan2(y, x)];
}

/** Metres along the meridian from the origin's latitude to another. */
function meridian(latitude) {
  const n = (AIRY.a - AIRY.b) / (AIRY.a + AIRY.b);
  const less = latitude - ORIGIN.latitude;
  const more = latitude + ORIGIN.latitude;
  return AIRY.b * ORIGIN.scale * (
    (1 + n + 5 / 4 * n ** 2 + 5 / 4 * n ** 3) * less
    - (3 * n + 3 * n ** 2 + 21 / 8 * n ** 3) * Math.sin(less) * Math.cos(more)
    + (15 / 8 * n ** 2 + 15 / 8 * n ** 3) * Math.sin(2 * less) * Math.cos(2 * more)
    - 35 / 24 * n ** 3 * Math.sin(3 * less) * Math.cos(3 * more));
}

/** Metres east and north of an angle on OSGB36, in radians: the guide's series. */
export function project(latitude, longitude) {
  const e2 = eccentricity(AIRY);
  const [sin, cos, tan] = [Math.sin(latitude), Math.cos(latitude), Math.tan(latitude)];
  const v = AIRY.a * ORIGIN.scale / Math.sqrt(1 - e2 * sin ** 2);
  const p = AIRY.a * ORIGIN.scale * (1 - e2) / (1 - e2 * sin ** 2) ** 1.5;
  const h2 = v / p - 1;
  const along = longitude - ORIGIN.longitude;
  const north = meridian(latitude) + ORIGIN.north
    + v / 2 * sin * cos * along ** 2
    + v / 24 * sin * cos ** 3 * (5 - tan ** 2 + 9 * h2) * along ** 4
    + v / 720 * sin * cos ** 5 * (61 - 58 * tan ** 2 + tan ** 4) * along ** 6;
  const east = ORIGIN.east + v * cos * along
    + v / 6 * cos ** 3 * (v / p - tan ** 2) * along ** 3
    + v / 120 * cos ** 5 * (5 - 18 * tan ** 2 + tan ** 4 + 14 * h2 - 58 * tan ** 2 * h2)
      * along ** 5;
  return [east, north];
}
