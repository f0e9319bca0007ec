// What a question can be wrong about, in words for whoever asked it.

/** Something that was typed cannot be read: the name of the field, and why. */
export class NotReadable extends Error {
  constructor(field, why) {
    super(why);
    this.field = field;
  }
}

/** Something that was dropped is not what it should be. */
export class NotUsable extends Error {}
