// What a crew hears and feels where its order comes, where something of its job changes, and where
// the desk takes the order away; and the screen stays on while there is one. A phone lets a page
// sound after its first tap.
//
//   notice.note(view)   looks at what is shown; tells of what is other than before

const TONES = [[880, 0], [1320, 0.2], [880, 0.4]]; // hertz, and seconds after the beginning
const LENGTH = 0.18; // seconds of a tone

/** What a crew is told of: '' where there is nothing. */
function newsOf({ job, taken }) {
  if (job) return JSON.stringify([job.order, job.class, job.notes.map(({ text }) => text)]);
  return taken ? `${taken} was taken away` : '';
}

export class Notice {
  #told = ''; // the news that was told last
  #hasOrder = false;
  #sound = null;
  #lock = null; // what keeps the screen on

  constructor() {
    addEventListener('pointerdown', () => {
      this.#sound ??= new AudioContext();
      this.#sound.resume();
    });
    document.addEventListener('visibilitychange', () => this.#keepOn());
  }

  note(shown) {
    const news = newsOf(shown);
    if (news && news !== this.#told) this.#tell();
    this.#told = news || this.#told;
    const hasOrder = shown.order !== null;
    if (hasOrder === this.#hasOrder) return;
    this.#hasOrder = hasOrder;
    this.#keepOn();
  }

  #tell() {
    navigator.vibrate?.([400, 200, 400]);
    if (this.#sound?.state !== 'running') return;
    for (const [frequency, after] of TONES) {
      const tone = new OscillatorNode(this.#sound, { frequency, type: 'square' });
      tone.connect(this.#sound.destination);
      tone.start(this.#sound.currentTime + after);
      tone.stop(this.#sound.currentTime + after + LENGTH);
    }
  }

  /** The browser lets go of the screen itself where the page is hidden. */
  async #keepOn() {
    try {
      if (!this.#hasOrder) {
        await this.#lock?.release();
        this.#lock = null;
      } else if (document.visibilityState === 'visible') {
        this.#lock = await navigator.wakeLock?.request('screen');
      }
    } catch (fault) {
      console.warn(`The screen may go dark: ${fault}`);
    }
  }
}
