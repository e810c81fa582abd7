// The selftest for wasm32, in node: answers the calls of the fixed list through rinchovek.js, and holds the answers against those of the list.
//
//     node selftest.js [CALLS ANSWERS]     prints 'N passed, 0 failed'; before that the first calls that failed
//     node selftest.js --answers           answers calls from standard input as they come, as the program replay does
//     node selftest.js --stack             runs the list, and prints how many bytes of stack the calls took at the most
//
// The bytes of calls and answers are those of docs/REPLAY.md. Exit status 0 where all passed, 1 where a call failed.
import { readFileSync, writeFileSync } from 'node:fs'
import * as face from './rinchovek.js'

const { BLOCK_BYTES, LINE_BYTES, PIXEL_BYTES, PIXELS_BYTES, RECORD_BYTES, HEAD_BYTES, HALVES, PIXEL_FLOATS } = face
const { HEAD_NUMBERS, COLOUR_HEAD_NUMBERS, OPEN_NUMBERS, COUNTS, VERSION } = face
const LONGEST = 65536
const module = readFileSync(new URL('rinchovek.wasm', import.meta.url))
const { instance } = await WebAssembly.instantiate(module)
const rinchovek = await face.load(instance)

// ---- calls in, answers out
class Ended extends Error {}
let calls
let at = 0
let answer

function take(count) {
  if (at + count > calls.length) throw new Ended()
  at += count
  return Uint8Array.from(calls.subarray(at - count, at))
}
const takeNumber = () => new DataView(take(4).buffer).getUint32(0, true)
function takeLength() {
  const length = takeNumber()
  if (length > LONGEST) throw new Ended()
  return length
}
const takeSheet = () => take(takeLength())
const takeCounts = () => Uint32Array.from({ length: COUNTS }, takeNumber)

const give = (bytes) => answer.push(bytes)
const giveSmall = (number) => give(Uint8Array.of(Math.min(number, 255)))
const giveNumbers = (...numbers) => numbers.forEach((number) => give(Uint8Array.of(number, number >>> 8, number >>> 16, number >>> 24)))

// ---- the calls: from bytes to bytes, with a number where one stands first
function fromTo(run, ...first) {
  const length = takeLength()
  const count = takeLength()
  const from = take(length)
  const to = take(count)
  const [refusal, ...head] = [run(from, to, ...first)].flat()
  giveSmall(refusal)
  head.forEach(give)
  give(to)
}

function index(find) {
  const block = take(BLOCK_BYTES)
  const line = takeNumber()
  const pixel = takeNumber()
  const found = new Uint32Array(1)
  giveSmall(find(block, line, pixel, take(PIXEL_BYTES), found))
  giveSmall(found[0])
}

// A head: by the call that reads either form, and the two for form 1 beside it, which answer the same but refuse form 2.
function head(colour) {
  const sheet = take(take(1)[0])
  const numbers = new Uint32Array(OPEN_NUMBERS)
  const three = new Uint32Array(HEAD_NUMBERS)
  const four = new Uint32Array(COLOUR_HEAD_NUMBERS)
  const refusal = rinchovek.sheetOpen(sheet, numbers)
  const refusals = [rinchovek.sheetReadHead(sheet, three), rinchovek.sheetReadColourHead(sheet, four)]
  const tiles = sheet[0] === face.Form.FORM_TILES
  const expected = tiles ? face.Refusal.UNKNOWN_FORM : refusal
  const same = refusals.every((one) => one === expected) && four.every((number, i) => number === (tiles ? 0 : numbers[i])) &&
    three.every((number, i) => number === four[i])
  giveSmall(same ? refusal : 254)
  giveNumbers(...numbers.subarray(0, HEAD_NUMBERS))
  if (colour) giveSmall(numbers[HEAD_NUMBERS])
}

function needed(find) {
  const from = takeSheet()
  const length = new Uint32Array(1)
  giveSmall(find(from, length))
  giveNumbers(length[0])
}

const LETTERS = {
  D() {
    const pixels = new Uint8Array(PIXELS_BYTES)
    rinchovek.bc7DecodeBlock(take(BLOCK_BYTES), pixels)
    give(pixels)
  },
  G() {
    const sign = take(1)[0]
    if (sign > 1) throw new Ended()
    const block = take(BLOCK_BYTES)
    const halves = new Uint16Array(HALVES)
    rinchovek.bc6hDecodeBlock(block, sign ? 2 ** (block[BLOCK_BYTES - 1] % 32) : 0, halves)
    halves.forEach((half) => give(Uint8Array.of(half, half >>> 8)))
  },
  U() {
    const record = new Uint8Array(RECORD_BYTES)
    giveSmall(rinchovek.bc7Unpack(take(BLOCK_BYTES), record))
    give(record)
  },
  P() {
    const block = new Uint8Array(BLOCK_BYTES)
    const record = take(RECORD_BYTES)
    if (record[face.RecordOffset.RECORD_KIND] > face.Kind.VECTOR_AND_SCALAR) throw new Ended()
    giveSmall(rinchovek.bc7Pack(record, block))
    give(block)
  },
  R() {
    const block = take(BLOCK_BYTES)
    giveSmall(rinchovek.bc7ReplaceLine(block, takeNumber(), take(LINE_BYTES)))
    give(block)
  },
  r() {
    const held = new Uint8Array(LINE_BYTES)
    const widths = new Uint8Array(LINE_BYTES)
    giveSmall(rinchovek.bc7ReadLine(take(BLOCK_BYTES), takeNumber(), held, widths))
    give(held)
    give(widths)
  },
  N: () => index(rinchovek.bc7NearestIndex),
  E: () => index(rinchovek.bc7ExactIndex),
  A: () => giveSmall(rinchovek.bc7IsOpaque(take(BLOCK_BYTES), takeNumber(), takeNumber())),
  Q() {
    const rgba = new Uint8Array(PIXEL_BYTES)
    giveSmall(rinchovek.bc7Pixel(take(BLOCK_BYTES), takeNumber(), rgba))
    give(rgba)
  },
  H: () => head(false),
  h: () => head(true),
  W() {
    const written = new Uint8Array(HEAD_BYTES)
    const count = new Uint32Array(1)
    giveSmall(rinchovek.sheetWriteHead(takeNumber(), takeNumber(), written, count))
    giveSmall(count[0])
    give(written)
  },
  O() {
    const place = [takeNumber(), takeNumber(), takeNumber()]
    fromTo((from, to) => rinchovek.sheetDecodeRow(...place, from, to))
  },
  S() {
    const sheet = takeSheet()
    giveSmall(rinchovek.sheetReplaceLine(sheet, takeNumber(), takeNumber(), take(LINE_BYTES)))
    give(sheet)
  },
  I: () => fromTo(rinchovek.ddsImport),
  X: () => fromTo(rinchovek.ddsExport),
  i: () => fromTo((from, to) => {
    const numbers = new Uint32Array(COLOUR_HEAD_NUMBERS)
    const refusal = rinchovek.ddsImportColour(from, to, numbers)
    return [refusal, new Uint8Array(numbers.buffer).slice(0, 4 * HEAD_NUMBERS), Uint8Array.of(numbers[HEAD_NUMBERS])]
  }),
  x() {
    const colourSpace = take(1)[0]
    if (colourSpace > face.ColourSpace.SRGB) throw new Ended()
    fromTo((from, to) => rinchovek.ddsExportColour(from, colourSpace, to))
  },
  d: () => needed(rinchovek.ddsImportLength),
  s: () => needed(rinchovek.ddsExportLength),
  T: () => fromTo(rinchovek.sheetToTiles),
  Z: () => fromTo(rinchovek.sheetToRows),
  V() {
    const row = takeNumber()
    fromTo((from, to) => rinchovek.sheetShowRow(from, row, to))
  },
  o() {
    const numbers = new Uint32Array(OPEN_NUMBERS)
    giveSmall(rinchovek.sheetOpen(takeSheet(), numbers))
    giveNumbers(...numbers)
  },
  b() {
    const sheet = takeSheet()
    const block = new Uint8Array(BLOCK_BYTES)
    giveSmall(rinchovek.sheetBlock(sheet, takeNumber(), block))
    give(block)
  },
  c() {
    const colourSpace = takeNumber()
    const sheet = takeSheet()
    giveSmall(rinchovek.sheetStateColour(sheet, colourSpace))
    give(sheet)
  },
  C() {
    const counts = new Uint32Array(COUNTS)
    giveSmall(rinchovek.sheetCount(takeSheet(), counts))
    giveNumbers(...counts)
  },
  L() {
    const sheet = takeSheet()
    const counts = takeCounts()
    giveSmall(rinchovek.sheetReplaceLineCounted(sheet, counts, takeNumber(), takeNumber(), take(LINE_BYTES)))
    give(sheet)
    giveNumbers(...counts)
  },
  K() {
    const sheet = takeSheet()
    const counts = takeCounts()
    giveSmall(rinchovek.sheetReplaceBlockCounted(sheet, counts, takeNumber(), take(BLOCK_BYTES)))
    give(sheet)
    giveNumbers(...counts)
  },
  F() {
    const floats = new Float32Array(PIXEL_FLOATS)
    rinchovek.pixelFloats(take(PIXEL_BYTES), floats)
    give(new Uint8Array(floats.buffer))
  },
  Y() {
    const channel = new Uint32Array(1)
    giveSmall(rinchovek.floatChannel(takeNumber(), channel))
    giveSmall(channel[0])
  },
  f() {
    const length = takeLength()
    const count = takeLength()
    const pixels = take(length)
    const floats = new Float32Array(take(4 * count).buffer)
    giveSmall(rinchovek.rowFloats(pixels, floats))
    give(new Uint8Array(floats.buffer))
  },
}

// One call: its answer, or undefined where it is cut off or unknown.
function call() {
  const letter = String.fromCharCode(take(1)[0])
  answer = []
  if (!(letter in LETTERS)) return [letter]
  try {
    LETTERS[letter]()
  } catch (fault) {
    if (fault instanceof Ended) return [letter]
    throw fault
  }
  return [letter, Buffer.concat(answer)]
}

// ---- the two ways of running
function answerCalls() {
  calls = readFileSync(0)
  const answers = []
  while (at < calls.length) {
    const [, bytes] = call()
    if (bytes === undefined) break
    answers.push(bytes)
  }
  writeFileSync(1, Buffer.concat(answers))
}

function holdList(expected) {
  let passed = 0
  let failed = 0
  let done = 0
  const fail = (text) => { if (++failed <= 10) console.log(text) }
  if (rinchovek.version() !== VERSION) fail('the module is of another version than rinchovek.js')
  while (at < calls.length) {
    const [letter, bytes] = call()
    const number = passed + failed + 1
    if (bytes === undefined) {
      fail(`call ${number}, ${letter}: is cut off, or unknown`)
      break
    }
    if (bytes.equals(expected.subarray(done, done + bytes.length))) passed++
    else fail(`call ${number}, ${letter}: another answer`)
    done += bytes.length
  }
  if (done < expected.length) fail('there are more answers than calls')
  console.log(`${passed} passed, ${failed} failed`)
  process.exitCode = failed > 0 ? 1 : 0
}

const words = process.argv.slice(2)
if (words[0] === '--answers') answerCalls()
else {
  const list = new URL('../../share/rinchovek/selftest/', import.meta.url)
  const files = words.length === 2 ? words : [new URL('calls', list), new URL('answers', list)]
  const [from, expected] = files.map((name) => readFileSync(name))
  calls = from
  if (words[0] === '--stack') {
    // the stack lies lowest in memory and grows down: what lies there is painted, and the lowest byte that isn't paint is looked for
    const top = instance.exports.__stack_pointer.value
    const PAINT = 0xA5
    new Uint8Array(instance.exports.memory.buffer, 0, top).fill(PAINT)
    holdList(expected)
    const stack = new Uint8Array(instance.exports.memory.buffer, 0, top)
    console.log(`stack: ${top - stack.findIndex((byte) => byte !== PAINT)} bytes of ${face.STACK_BYTES}`)
  } else holdList(expected)
}
