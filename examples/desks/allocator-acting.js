// Doing what a key asks for: at once, or after a form or a confirmation; and taking it back.

const UNANSWERED = 'No answer came. It may have been done, or not: look at the lists before you '
  + 'try again.';

/** A refusal in words, with its number for whoever looks it up. */
export const refusalWords = (answer) =>
  (answer.isUnanswered ? UNANSWERED : `${answer.words} (${answer.number})`);

export class Acting {
  #undone = []; // what can be taken back, the last at the end
  #unsure = ''; // the last request that got no answer

  constructor(reading, drawer) {
    Object.assign(this, { reading, drawer });
  }

  /** Begins what a key stands for, with what a line of a panel is about. */
  async begin(action, panel, target = panel.line?.target ?? {}, isAgain = false) {
    const room = this.reading.room();
    if (action.of && target[action.of] === undefined) {
      panel.say(`This line has no ${action.of}: “${action.name}” needs one.`, true);
      return;
    }
    const form = await action.form?.(target, room);
    if (form?.refusal) {
      this.drawer.close();
      panel.say(refusalWords(form.refusal), true);
    } else if (form?.isEmpty && isAgain) {
      this.drawer.close();
    } else if (form || action.confirm?.(target, room)) {
      this.#open(action, panel, target, form ?? { note: action.confirm(target, room) });
    } else if (panel.hasJustMoved) {
      panel.say('The list has just moved. Look at the line, and press again.', true);
    } else {
      const words = await this.#do(action, panel, target, {});
      if (words) panel.say(words, true);
    }
  }

  #open(action, panel, target, form) {
    const send = async (values) => {
      const words = await this.#do(action, panel, target, values);
      if (words) return words;
      if (action.isRepeated) await this.begin(action, panel, target, true);
      else this.drawer.close();
      return '';
    };
    this.drawer.open(panel, { title: action.title?.(target) ?? `${action.button}`, ...form, send,
      button: form.isEmpty ? '' : action.button });
  }

  /** Asks the room for it; gives words where it was not done. What is refused may have been done by
      the same request before, whose answer was lost. */
  async #do(action, panel, target, values) {
    const room = this.reading.room();
    const request = action.request(target, values, room);
    if (request.words) return request.words;
    const undo = action.undo?.(target, values, room);
    const answer = await this.reading.act(request.path, request.body);
    const asked = JSON.stringify(request);
    const wasUnsure = this.#unsure === asked;
    this.#unsure = answer.isUnanswered ? asked : '';
    const already = !answer.ok && wasUnsure ? await action.already?.(target, values) : '';
    if (!answer.ok && !already) return refusalWords(answer);
    this.#undone.push({ panel, undo });
    const back = undo ? ` u takes it back: ${undo.words}.` : '';
    panel.say((already || action.done(target, values, answer.content)) + back);
    return '';
  }

  /** Takes the last thing back that this page did. */
  async undo(panel) {
    const { undo, panel: where } = this.#undone.pop() ?? {};
    if (!undo) {
      panel.say(where ? 'The last thing done can not be taken back.' : 'Nothing was done.', true);
      return;
    }
    for (const { path, body } of undo.requests) {
      const answer = await this.reading.act(path, body);
      if (!answer.ok) {
        where.say(`Not taken back (${undo.words}): ${refusalWords(answer)}`, true);
        return;
      }
    }
    where.say(`Taken back: ${undo.words}.`);
  }
}
