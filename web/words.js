// What the answers, faults and refusals mean, in words.

const byName = (/** @type {string} */ text) => Object.fromEntries(text.trim().split('\n')
  .map((line) => line.split(/: (.*)/)));

// The faults of lines and of orders come by their numbers, from 1.
export const LINE_FAULTS = byName(`
NoUnit: write UNIT and a number above this order, or mend the FORM above it.
UnknownOrder: no order has this first word. Write it whole.
BadNumber: a number is missing here, or out of its range.
UnknownThing: the world has no such item, skill or kind. NAME wants UNIT, FACTION, BUILDING or SHIP.
MissingWord: the line ends too early.
BadByte: write English letters, digits and plain signs alone, also in a comment.
BadAlias: after FORM or NEW comes a number from 1 to 9,999, and each FORM has its own.
NestedForm: an END is missing above this FORM.
EndAlone: no FORM is above this END.
BadDirection: write NORTH, SOUTH, EAST or WEST.
BadName: a name has 1 to 40 characters, and no space at its ends.
`);

export const EVENT_FAULTS = byName(`
NotYours: the unit is not there, or not yours.
NotHere: the other unit or the structure is not in this region, or the unit is not inside it.
NotEnough: let others PAY or GIVE in the same month. For its own PAY or GIVE, only a unit of a lower number is in time.
NoRoom: the receiver cannot hold so much.
Guarded: another faction guards the region. Ask it for GUARD 0, or go elsewhere.
NotOwner: another unit owns the structure. Let it PROMOTE this one.
NotInside: the unit is in no such structure. ENTER in the same month, or for NAME in the month before.
UnitLimit: no further unit can be formed.
AtSea: sail to land first.
NoMen: the unit has no men. TRANSFER some to it.
WrongNumber: the number is not that of your faction.
NotGuarding: the unit was not on guard as the month began. GUARD 1 now, and TAX from the next month on.
NoSkill: the level is too low, or no skill makes this item. STUDY first.
NoMaterial: the unit has too little of it. Let others GIVE it in the same month.
Complete: the structure is finished.
StructureLimit: no further structure can be begun.
NoWay: no region is there, or it cannot be entered in this way.
TooHeavy: the goods weigh more than can be carried.
NotComplete: this is no ship, or it is not finished. BUILD inside it.
NoCrew: the sailors aboard are too few, or their level is too low.
NotLearning: no unit of the list studies in this region. Let it STUDY in the same month, with money for the fee.
CannotTeach: the teacher's level is no higher than theirs.
NoFee: the unit has less money than the fee of all its men. PAY to it in the same month.
NoMarket: the region has no market for this item.
`);

export const REFUSALS = byName(`
BadName: a name has 1 to 40 English letters, digits, spaces and signs, but no " and no space at its ends.
BadPassText: a pass text has 1 to 40 English letters, digits and signs, without spaces.
NameTaken: a faction has joined under this name already.
Full: the campaign takes no further faction.
NoFaction: no faction has this number.
WrongPass: this faction has another pass text, and capitals count.
Gone: your faction has no unit left, and is out of the game.
TooLong: the text has more than 65,536 bytes.
NoHeader: no line begins with #ATLANTIS. Write it and your faction number above the orders.
BadHeader: after #ATLANTIS comes the number of your faction, from 1 to 9,999.
WrongFaction: the number after #ATLANTIS is not that of your faction.
Memory: the program is out of memory and stopped. Tell the moderator.
Store: the program could not write its file and stopped. Tell the moderator.
Closed: the program stopped after a fault. Tell the moderator.
BadRequest: the program cannot read this request. Ask the moderator.
NoRoute: the program has nothing at this address.
BadMethod: the program does not answer this kind of request. Ask the moderator.
NoLength: the length of the text did not arrive. Ask the moderator.
BodyTooLong: the text has more than 65,536 bytes.
NoPass: the pass text did not arrive. Type it again.
BadJson: the program cannot read this request. Ask the moderator.
`);

export const LOST = byName(`
Timeout: The server was silent for 30 seconds.
Unreachable: The server is down, or you are offline. Try again later.
CutOff: The answer was cut off. Try again.
Redirect: The server sent the request elsewhere, and the page did not follow. Ask the moderator.
`);

export const STATUSES = byName(`
400: the server cannot read this request.
403: the server does not allow this.
404: the server has nothing at this address.
405: the server does not take this here.
408: the text did not arrive in time. Try again.
411: the length of the text did not arrive.
413: the text is too long. Orders have at most 65,536 bytes.
429: you asked too often. Wait some seconds.
500: the server has a fault.
502: the program does not answer. The moderator may be at work on the campaign.
503: the server is busy, or you asked too often. Wait some seconds.
504: the program did not answer in time.
`);

// What an order did: # is its number, followed by ` of N` where it asked for N and N is more.
const DONE = byName(`
FORM: formed unit #
PAY: paid # money
GIVE: gave #
TRANSFER: moved # men
SELL: sold #
BUY: bought #
TAX: took # money
RECRUIT: hired # men
BUILD: built #
TEACH: taught # men
STUDY: learned # days
PRODUCE: made #
WORK: earned # money
`);

/** @type {T.DoneWords} */
export function doneWords(verb, number, asked = null) {
  const some = asked !== null && asked > number ? `${number} of ${asked}` : `${number}`;
  if (Object.hasOwn(DONE, verb)) return DONE[verb].replace('#', some).replace(/\b1 men/, '1 man');
  return number === 0 ? 'done' : `done ${number}`;
}

/** @type {T.BringsAmount} */
export const bringsAmount = (verb) => verb !== 'FORM' && Object.hasOwn(DONE, verb);

/** @type {T.FaultOf} */
const faultOf = (table) => (number, name) => {
  const known = Object.keys(table)[number - 1];
  return known && (name ?? known) === known ? `${known}: ${table[known]}` : `${name || 'fault'} (number ${number})`;
};

export const lineFaultWords = faultOf(LINE_FAULTS);
export const eventFaultWords = faultOf(EVENT_FAULTS);

/** @param {string} name */
export const refusalWords = (name) => (
  `${name}: ${Object.hasOwn(REFUSALS, name) ? REFUSALS[name] : 'the program refused this.'}`);

/** @param {number} status */
export const statusWords = (status) => (
  `Status ${status}: ${STATUSES[status] ?? 'this page does not know it.'} If it stays so, ask the moderator.`);

export const NONE_KEPT = 'This browser keeps no report of this faction yet. Sign in to fetch it.';

const FORMAT = new Intl.NumberFormat('en');

/** @param {number} number */
export const numbered = (number) => FORMAT.format(number);

/** @type {T.Counted} */
export const counted = (number, one, many = `${one}s`) => `${numbered(number)} ${number === 1 ? one : many}`;

/** @type {T.CountedFaults} */
export const countedFaults = ({ orders, faults }) => `${counted(orders, 'order')}, ${counted(faults.length, 'fault')}`;

// The form of an order, an example if the form is none, what the order does, and what it needs.
export const ORDERS = `
FORM a .. END | FORM 7 | forms a unit for the orders up to END. Others call it NEW 7 | men in the same month
NAME UNIT name | NAME UNIT "Woodcutters of Far" | gives the unit a name
NAME FACTION name | NAME FACTION Avalon_the_Green | gives your faction a name
NAME BUILDING name | NAME BUILDING Lodge_of_Far | gives the building a name | to be inside as its owner
NAME SHIP name | NAME SHIP "Sea Lion" | gives the ship a name | to be inside as its owner
GUARD 1 | | guards the region from now on | men, and no unit of another faction on guard there
GUARD 0 | | no longer guards
ENTER n, BOARD n | ENTER 4 | goes into structure n of the same region
LEAVE | | goes out of the structure | to be inside one, on land
PROMOTE u | PROMOTE 12 | makes unit u the owner of the structure | to own it, and u inside
GIVE u n item | GIVE 12 5 wood | gives unit u n of an item | u in the same region
PAY u n | PAY NEW 7 200 | gives unit u n money | u in the same region
TRANSFER u n | TRANSFER NEW 7 2 | moves n men to your unit u, with their days | u in the same region
SELL n item | SELL 4 wood | sells up to n of an item | a market for it, and at least one of it
BUY n item | BUY 2 wood | buys up to n of an item | a market for it, and money for at least one
TAX | | takes money from the region | men, on guard since an earlier month
RECRUIT n | RECRUIT 5 | hires n of the peasants | the price of a recruit for each
QUIT f | QUIT 1 | takes your whole faction f out of the game
STUDY skill | STUDY lumberjack | learns a skill | men, and the fee for each of them
TEACH u .. | TEACH 12 NEW 7 | teaches these units, ten men for each of its own | men of a higher level
PRODUCE item | PRODUCE wood | makes an item | men with the skill; raw items, or a region that has it
BUILD kind | BUILD boat | begins a structure, and builds at it | men with the skill, on land; the material
BUILD | | builds at the structure that it is in | men with the skill; the material
WORK | | works for wages | men, and free places
MOVE d | MOVE north | walks to the next region north, south, east or west | men, land on both sides, no heavy load
SAIL d | SAIL west | sails its ship to the next region | to own the complete ship; crew; water on one side at least
`.trim().split('\n').map((line) => line.split('|').map((cell) => cell.trim()));
