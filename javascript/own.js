/** Texts that a camera or a program writes by itself, in the place of a caption: by the rules of exifnorm_pictures, which are in its tables. @module */

const wordsOf = (text) => text.match(/[\p{L}\p{N}_-]+/gu) ?? [];
const isWhole = (rule, text, flags = "") => new RegExp(`^(?:${rule})$`, `${flags}s`).test(text);

/** Whether a line has no other words than those of a camera's name. */
function isName(words, makes, models, filling) {
  if (!words.every((word) => makes.includes(word) || models.includes(word) || filling.includes(word))) return false;
  const hasNumber = words.some((word) => models.includes(word) && /\d/.test(word) && !/^\d+$/.test(word));
  const isMake = words.some((word) => makes.includes(word)), isModel = models.length > 1 && models.every((word) => words.includes(word));
  return hasNumber || words.length > 1 && (isMake || isModel);
}

/** Whether a camera with this make and model, or a program, writes the text by itself. */
export function isOwn({ texts, program, camera, file, filling }, text, make, model) {
  const line = text.replace(/^[ \0]+|[ \0]+$/g, "").split(/\s+/).filter(Boolean).join(" "), upper = line.toUpperCase();
  if (line.length > 1000) return false;
  if (texts.includes(upper) || isWhole(program, line, "i") || isWhole(camera, line) || isWhole(file, line, "i")) return true;
  const [makes, models] = [make, model].map((name) => wordsOf(name.toUpperCase()).filter((word) => !filling.includes(word)));
  return isName(wordsOf(upper), makes, models, filling);
}
