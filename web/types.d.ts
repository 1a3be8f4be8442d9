// The shapes and functions of the modules, for a type checker alone: the page doesn't read this file. In the modules
// each name begins with T. The comment of a function's type says what the function does.

export as namespace T;

export type Way = 'north' | 'south' | 'east' | 'west';

/** The numbers of the neighbours of a region. */
export type Exits = Partial<Record<Way, number>>;

export interface Unit {
  own: boolean;
  number: number;
  name: string;
  faction: number;
  factionName: string;
  men: number;
  /** null for a unit of another faction */
  money: number | null;
  guard: boolean;
  /** the structure that it is inside, or 0 */
  inside: number;
  items: { amount: number; name: string }[];
  skills: { name: string; level: number; days: number }[];
  /** parts of the line that were not understood */
  other: string[];
}

export interface Market {
  item: string;
  stock: number;
  price: number;
  wanted: number;
  pays: number;
}

export interface Structure {
  number: number;
  name: string;
  kind: string;
  done: number;
  size: number;
  /** 0 where none is seen */
  owner: number;
}

export interface Region {
  number: number;
  name: string;
  terrain: string;
  peasants: number;
  money: number;
  exits: Exits;
  markets: Market[];
  structures: Structure[];
  units: Unit[];
}

/** What came of one order, or of a unit's month. */
export interface Event {
  /** 0 for an order in the block of a FORM that failed */
  unit: number;
  /** 0 for what came without an order */
  line: number;
  verb?: string;
  done?: number;
  fault?: number;
  name?: string;
  starved?: number;
}

export interface LineFault {
  line: number;
  number: number;
  name?: string;
}

export interface Report {
  /** null in a text that is no report */
  month: number | null;
  faction: number | null;
  name: string | null;
  faults: LineFault[];
  events: Event[];
  regions: Region[];
  unread: { line: number; text: string }[];
}

/** Names of the world that a report can hold. */
export interface Names {
  items: Iterable<string>;
  skills: Iterable<string>;
}

export type LineKind = 'outside' | 'header' | 'end' | 'bad' | 'blank' | 'unit' | 'block' | 'order';

export interface Word {
  /** without quotes */
  text: string;
  quoted: boolean;
  /** where it begins and ends in its line, with its quotes */
  from: number;
  to: number;
}

/** A line of a mailing. */
export interface MailingLine {
  line: number;
  text: string;
  kind: LineKind;
  words: Word[];
  /** in capitals, and ENTER for BOARD */
  verb: string;
  /** null where none is named, and in the block of a FORM */
  unit: number | null;
  /** the line of the FORM in whose block the order is */
  form: number | null;
  /** the number of the line's fault, or 0 */
  fault: number;
}

/** What a line says by itself. */
export type Said = Pick<MailingLine, 'words' | 'verb' | 'kind' | 'fault'>;

/** A mailing as the program reads it. */
export interface Reading {
  lines: MailingLine[];
  /** null where no header names one */
  faction: number | null;
  hasHeader: boolean;
  orders: number;
  faults: [number, number][];
}

/** A mailing that the program accepted. */
export interface Mailing {
  text: string;
  /** milliseconds since 1970 */
  at: number;
  orders: number;
  /** line and number of each faulty line */
  faults: [number, number][];
  /** the latest month whose report was kept then */
  after: number | null;
  /** the month that it was for, as soon as that is known */
  month?: number;
}

/** What the program says of a mailing. */
export type Taken = Pick<Mailing, 'orders' | 'faults'>;

/** A faulty line of what was sent, where it is now. */
export interface Mark {
  line: number;
  number: number;
  changed: boolean;
}

/**
 * The text with an order for a unit, and the order's line. It takes the place of the order of the same slot that counts
 * for the unit, whose indent and comment stay, or else it is the last one below the unit's last UNIT line. Null where
 * the text has no header.
 */
export type WriteOrder = (
  text: string, faction: number, unit: number, order: string, names?: Known | null,
) => { text: string; line: number } | null;

export interface EarlierText {
  text: string;
  /** milliseconds since 1970; 0 if unknown */
  at: number;
}

/** Status 0 where no answer came. */
export interface Reply {
  status: number;
  text: string;
  lost?: Lost;
  /** whether the program did what was asked */
  isOk: boolean;
  /** the value of a text that is JSON, or an empty object */
  json: any;
  /** the name of the program's refusal */
  error: string | null;
}
export type Lost = 'Timeout' | 'Unreachable' | 'CutOff' | 'Redirect';

export type Tone = 'good' | 'bad' | 'mixed' | 'plain';
export type Child = Node | string | null;
/** Lists may have lists. */
export type Children = (Child | Child[] | (Child | Child[])[])[];
export type Attributes = Record<string, string | number>;
export type Make<E> = (tag: string, attributes?: Attributes, ...children: Children) => E;
/** Takes a text. */
export type Act = (text: string) => void;

/** A faction and its pass text. */
export interface Sign {
  faction: number;
  pass: string;
}

/** What to say of a request. */
export interface Outcome {
  tone: Tone;
  words: string;
}

/** A request with a body is a POST. */
export type Ask = (path: string, request?: { pass?: string; body?: string }) => Promise<Reply>;
export type TakeReport = (faction: number, month: number, text: string) => void;

/** A text that is kept of each faction. `keep` is false where the browser can't. */
export interface Kept {
  of: (faction: number) => string | null;
  keep: (faction: number, value: string | number) => boolean;
  forget: (faction: number) => void;
}

export interface KeptList<E> {
  of: (faction: number) => readonly E[];
  keep: (faction: number, list: E[]) => boolean;
}

/** All that is kept of a faction. */
export interface Archive {
  faction: number;
  /** by month */
  reports: Map<number, string>;
  mailings: readonly Mailing[];
  draft: Draft | null;
  earlier: readonly EarlierText[];
}

export interface Draft {
  text: string;
  /** the latest month as the draft was begun */
  after: number | null;
}

export interface Plan {
  reports: Map<number, string>;
  /** the months whose report differs */
  months: number[];
  draft: Draft | null;
  newDraft: boolean;
}

/**
 * Both lists as one: mailings from the oldest to the newest, earlier texts from the newest. Of two equal ones the first
 * list's stays.
 */
export type Join<E> = (kept: readonly E[], others: readonly E[], most: number) => E[];

export type NameByNumber = Map<number, string>;

/** Reads the parts of a line below a region, and is false where it has no place. */
export type ReadLine = (report: Report, parts: any, region: Region | undefined, forms: RestForms | null) => unknown;

/** The end of an own unit's line. */
export interface RestForms {
  whole: RegExp;
  item: RegExp;
  skill: RegExp;
}

/** A region on the map. */
export type MapRegion = (Region & { seen: number }) | { number: number; seen: null; exits: Exits };

export interface Place {
  x: number;
  y: number;
}

export type Regions = Map<number, MapRegion>;
export type MapPart = Map<number, Place>;
export type PlaceInPart = Place & { part: MapPart };
export type Placed = Map<number, PlaceInPart>;

export interface MapWay {
  from: number;
  way: Way;
  to: number;
}

/** What world.json has, and its names. */
export interface World {
  rules: { maintenance: number; recruit_price?: number; recruit_fraction?: number };
  item: { name: string; skill?: string }[];
  skill: { name: string; fee: number }[];
  kind: { name: string }[];
  region?: { number: number; name: string; terrain: string }[];
  /** in small letters */
  known: Known;
  /** as reports have them */
  names: Names;
}

export interface Known {
  item: Set<string>;
  skill: Set<string>;
  kind: Set<string>;
}

/** What can complete a word. */
export interface Choice {
  name: string;
  note?: string;
}

/** A row of the table of units. */
export interface Row {
  unit: Unit;
  region: Region;
  /** the orders of the month that count */
  orders: string[];
  events: Event[];
}

export interface Change {
  name: string;
  now: number;
  change: number;
}

export interface UnitPlace {
  unit: Unit;
  region: number;
}

// ---- functions of archive.js

/** The archive of a text, or in words why it is none. */
export type ReadArchive = (text: string) => Archive | {fault: string};

export type Only = (keys: string[]) => (entry: any) => any;

export type IsWhole = (value: unknown, least: number, most: number) => boolean;

export type IsList = (value: unknown, isRight: (entry: any) => boolean) => boolean;

export type IsReport = (faction: number, month: string, text: unknown) => boolean;

/** What a file has that is missing here or differs. */
export type PlanImport = (kept: Archive, archive: Archive) => Plan;

// ---- functions of archive_panel.js

export type KeptOf = (faction: number) => Archive;

/** Takes what is missing here at once, and asks before anything that differs is replaced. */
export type Offer = (archive: Archive) => void;

export type Take = (archive: Archive, all: boolean) => void;

// ---- functions of compose.js

/** The word that means a name in an order. */
export type WordFor = (name: string) => string;

export type AddUnit = (
  text: string, lines: MailingLine[], unit: number, order: string,
) => { text: string; line: number };

export type ChangeCompose = (
  text: string, at: number, removed: number, fresh: string[], place?: number,
) => { text: string; line: number };

/** The line of the last UNIT line of a unit, or null. */
export type UnitLine = (text: string, unit: number) => number | null;

/** The orders that count for each unit, by its number, as they are written without their comments. */
export type OrdersByUnit = (lines: MailingLine[]) => Map<number | null, { verb: string; text: string }[]>;

/**
 * The place of the word that ends at a place of a line, and what it can be: {from, choices}. Without choices it is
 * null. `lists` has the choices by what a word names: item, skill, kind and unit. A unit is found by its name too.
 */
export type Completions = (
  line: string, at: number, lists: Record<string, Choice[]>,
) => { from: number; choices: { text: string; name: string; note?: string | undefined }[] } | null;

export type ChoicesOf = (part: string, lists: Record<string, Choice[]>) => Choice[];

// ---- functions of dom.js

/** Puts children in the place of those that an element has. */
export type Refill = (id: string, ...children: Children) => void;

/** Calls `act` at each of the events, whose names have spaces between them. A target may be named by its id. */
export type On = (target: EventTarget | string, events: string, act: (event: any) => unknown) => void;

/** Says to all parts of the page what has changed. */
export type Tell = (event: string, detail?: unknown) => boolean;

export type Button = (text: string, act: () => unknown, attributes?: Attributes) => HTMLElement;

export type Link = (text: string, act: () => unknown) => HTMLElement;

export type Answer = (tone: Tone, ...parts: Children) => void;

/** What shows messages in an element. */
export type AnswerAt = (id: string) => Answer;

/** A paragraph of a class. */
export type MakeOf = (kind: string, ...children: Children) => HTMLElement;

/** A list below its title, and nothing where it is empty. */
export type TitledList = (heading: string, title: string, lines: string[]) => HTMLElement[];

export type ListOf = (items: (Child | Child[])[], attributes?: Attributes) => HTMLElement;

/** Runs the work of a button, once at a time. */
export type Busy = (id: string, work: () => Promise<unknown>) => Promise<void>;

/** Saves a text as a file of the player. */
export type SaveFile = (name: string, text: string, type: string) => void;

// ---- functions of drafts.js

/** Whether a mailing may still count for the month to come. */
export type IsPending = (faction: number, mailing: Mailing) => boolean;

/** Whether a text was written by the player and isn't kept elsewhere. */
export type IsDraft = (faction: number, written: string) => boolean;

/** Keeps a text as the draft if it is one. False where the browser can't keep it. */
export type SaveDraft = (faction: number, written: string) => boolean;

/** Notes that the draft is for the month after the latest one. */
export type MarkDraft = (faction: number) => void;

/** Whether a month was closed since the draft was begun. */
export type IsOldDraft = (faction: number) => boolean;

/** Keeps a text that is replaced, if the player wrote it. */
export type KeepReplaced = (faction: number, written: string) => void;

// ---- functions of editor.js

/** Marks the faulty lines of the text that was sent, which may have been edited since. */
export type SetFaults = (pairs: [number, number][], sent?: string) => void;

/**
 * The lines in which the program will find a fault, and its number, but for the line being typed. Without a world these
 * are the lines with a letter or sign that can't be in orders.
 */
export type Foreseen = () => [number, number][];

/** Selects a part of the text, or puts the caret at a place of it. */
export type Select = (start: number, end?: number) => void;

/** `act` comes after each change of the text, and `look` after the caret went to another line. */
export type WatchText = (act: () => void, look: () => void) => void;

// ---- functions of judge.js

/** Only the letters a to z have capitals in a mailing. */
export type Capitals = (word: string) => string;

/** Only the last one of a unit's orders of one slot counts. Null for a verb of which all count. */
export type SlotOf = (verb: string) => string | null;

/** The name that a word means. Outside quotes `_` is a space. */
export type NameIn = (word: Word) => string;

export type Begins = (line: string, keyword: string) => boolean;

export type NumberIn = (text: string, most: number, least?: number) => number | null;

/** What a line says by itself. */
export type SaidBy = (text: string) => Said;

/** Without the names that the world knows no name is an UnknownThing. */
export type ReadMailing = (text: string, known?: Known | null) => Reading;

export type PartsFault = (words: Word[], parts: string[]) => number;

export type PartFault = (word: Word, part: string) => number;

/** The amount that an order asks for, or null where it names none. */
export type AmountAsked = (order: MailingLine) => number | null;

/** What the word at an index names: a part of PARTS, `keyword`, `alias`, or null where nothing is read. */
export type PartAt = (words: Word[], index: number) => string | null;

// ---- functions of mailing.js

/** Whether the report may be on this mailing: its faults are the same, and each order that counts has its one event. */
export type FitsMailing = (mailing: Mailing, report: Report) => boolean;

/** The unit that an order was for: in a block the one that its FORM made, or unit 0. */
export type UnitOf = (order: MailingLine, events: Map<number, Event>) => number;

export type FitsEvent = (order: MailingLine, events: Map<number, Event>) => boolean;

/** Whether the units that were named are called so. */
export type SameNames = (orders: MailingLine[], events: Map<number, Event>, report: Report) => boolean;

/** A text to start the next month from: each unit of the report with a comment. */
export type Template = (report: Report) => string;

/** Where to write first in a text: the line below the first UNIT, or else the one below the header. */
export type FirstPlace = (text: string) => number;

// ---- functions of map_layout.js

/**
 * All regions of the reports, given from the oldest to the newest, by number. `seen` is the month of the last report
 * that has the region, and null where only a way to it is known.
 */
export type Gather = (reports: Pick<Report, 'month' | 'regions'>[]) => Regions;

export type WaysFrom = (region: MapRegion | undefined) => [Way, number][];

/**
 * {places: number -> {x, y}, ways, crooked, width, height}. A way is drawn between its two places, and a crooked one
 * can't be.
 */
export type LayOut = (
  regions: Regions,
) => { ways: MapWay[]; crooked: MapWay[]; places: MapPart; width: number; height: number };

export type Walk = (start: number, regions: Regions, placed: Placed) => MapPart;

export type Put = (number: number, x: number, y: number) => void;

/** Puts the parts beside and below one another, with a free column or row between them. */
export type Pack = (parts: MapPart[]) => { places: MapPart; width: number; height: number };

export type BoxOf = (part: MapPart) => { part: MapPart; left: number; top: number; width: number; height: number };

export type SortWays = (regions: Regions, placed: Placed) => { ways: MapWay[]; crooked: MapWay[] };

// ---- functions of map_panel.js

export type DrawWay = (from: Place, to: Place) => SVGElement;

export type DrawRegion = (region: MapRegion, corner: Place) => SVGElement;

export type RegionLines = (region: MapRegion) => [string, string][];

/** Chooses the region of which the player asks, and says so to those who don't see the map. */
export type ChooseNow = (number: number) => void;

export type Choose = (number: number | null) => void;

export type Details = (region: MapRegion) => Child[];

export type ByKey = (event: KeyboardEvent, region: MapRegion) => void;

// ---- functions of name_list.js

/** Puts a name in the place of the word, so that the browser can undo it. */
export type TakeNameList = (index: number) => void;

// ---- functions of order_clicks.js

/** Opens the window for a unit of the latest report. */
export type OpenOrders = (number: number) => void;

/** Rows of buttons. An amount that isn't written is as many as the unit has, or can pay for. */
export type Groups = (unit: Unit, region: Region) => HTMLElement[][];

export type Go = (verb: string) => HTMLElement[];

export type One = (title: string, note?: string, order?: () => string) => HTMLElement;

/** Buttons for the units in a region, and for those that can come there from the next one. */
export type RegionOrders = (number: number) => HTMLElement[];

/** Goes to the orders of a unit, or to the end of the text where it has none. */
export type ShowUnit = (number: number) => void;

// ---- functions of orders_notes.js

/** What is said of a faulty line. */
export type FaultWords = (line: number, number: number, changed?: boolean) => (Node | string)[];

// ---- functions of orders_panel.js

/** The texts that can be put into the editor: what was replaced, and then what was accepted last. */
export type TextsOf = (faction: number) => (EarlierText | Mailing)[];

export type HeardOfTab = (faction: number, name: string) => void;

export type OrdersIn = (reply: Reply) => Taken | null;

export type LeaveOpen = (faction: number, written: string, reply: Reply, tries: number) => void;

export type TakeOrders = (sign: Sign, written: string, taken: Taken) => void;

/** Text that was written before a faction was named stays, if the faction has no other. */
export type ChangeFaction = (before: number) => void;

// ---- functions of report_panel.js

export type MailingOf = (faction: number, report: Report) => Mailing | null;

/** The mailing gets the month of its report, and older ones without a month go. */
export type SettleMailing = (faction: number, report: Report) => void;

/** Asks for the report, shows it, and returns what to say of the faction and its pass text. */
export type SignIn = () => Promise<Outcome>;

export type Show = (faction: number, month: number | null) => void;

export type Display = (text: string, month: number | null, mailing: Mailing | null) => void;

// ---- functions of report_parser.js

/** Without the names of the world, a name of an item or a skill that looks like another part is read as that part. */
export type ParseReport = (text: string, names?: Names | null) => Report;

export type ReadLineReport = (report: Report, line: string, forms: RestForms | null) => unknown;

export type ReadExits = (region: Region, list: string[]) => boolean;

export type AddUnitReport = (
  region: Region | undefined, parts: Unit & {rest: string}, forms: RestForms | null,
) => unknown;

/** The parts come in the order guard, structure, items, skills. */
export type RestFormsReport = (names: Names) => RestForms;

/** A form that fits each of the names, the longest first, and nothing where there are none. */
export type AnyOf = (names: Iterable<string>) => string;

/** Whether all of the rest is read by the names of the world. */
export type ReadRest = (unit: Unit, rest: string, forms: RestForms) => boolean;

/** Reads a part without the names of the world. A name with a comma in it ends up in `other`. */
export type GuessPart = (unit: Unit, part: string) => void;

// ---- functions of report_view.js

export type ShowReport = (report: Report, mailing: Mailing | null) => HTMLElement;

export type OrdersPart = (report: Report, mailing: Mailing | null) => HTMLElement;

/** A row for each order, and for each line with a fault. */
export type OutcomesOf = (report: Report, mailing: Mailing | null) => HTMLElement[];

/** A line of which only the verb is known. */
export type BareLine = (line: number, text?: string) => MailingLine;

export type ToneOf = (event: Event, asked: number | null) => "done" | "failed" | "less";

/** What came of an order of `unit`: only another unit is named. */
export type EventWords = (event: Event, unit?: number | null, asked?: number | null) => string;

/** Men who starved, and then units that were formed and had no men at the month's end. */
export type Losses = (report: Report) => string[];

export type ShowRegion = (region: Region, names: NameByNumber) => HTMLElement;

/** What the own units of a region will owe, and what they have. Empty where no world says it. */
export type UpkeepWords = (region: Region) => string;

export type ExitWords = (exits: Exits, names: NameByNumber) => string;

/** A unit that nobody has named is called by its number. */
export type UnitTitle = (unit: {number: number, name: string}) => string;

export type UnitWords = (unit: Unit) => string;

// ---- functions of requests.js

export type TextOf = (reply: Response, heard: () => void) => Promise<string>;

export type ReplyOf = (status: number, text: string, lost?: Lost) => Reply;

/** Whether the program may have carried out the request, although its own answer didn't come. */
export type IsUnknown = (reply: Reply) => boolean;

// ---- functions of sign_in.js

/** Notes that the program took this pass text. It is kept only now, and only if the player asks for it. */
export type IsRight = (sign: Sign) => void;

/** The faction and the pass text of the fields, if the program took them; or null. */
export type RightSign = () => Sign | null;

/** The faction and the pass text of the fields, or what to do. */
export type SignedIn = () => Sign | {fault: string};

/** Starts the form. `signIn` asks the program, and returns what to say of it. */
export type StartSignIn = (signIn: () => Promise<Outcome>) => void;

// ---- functions of store.js

export type SetKept = (key: string, value: string | number) => boolean;

export type KeptStore = (name: string) => Kept;

/** A list is read once for each text that is kept. It must not be changed. */
export type KeptListStore = (name: string) => KeptList<any>;

export type DraftMonthOf = (faction: number) => number | null;

export type ReportOf = (faction: number, month?: number | null) => string | null;

export type KeepReport = (faction: number, month: number, text: string) => boolean;

export type ForgetReport = (faction: number, month: number) => void;

/** What another tab of this page changed: `act` gets the faction and the name of the thing. */
export type WatchTabs = (act: (faction: number, name: string) => void) => void;

// ---- functions of texts.js

/** A line ends at a line feed, and one carriage return right before it is dropped. */
export type SplitLines = (text: string) => string[];

/**
 * For each line of the old text, its index in the fresh one, or -1 if it is gone or was changed. Equal lines at the
 * start and the end go together, and between these the lines of one text, if both have as many of them.
 */
export type FollowLines = (old: string[], fresh: string[]) => number[];

/** The indexes of the lines in a part of a text, by what they say. */
export type LinesByText = (lines: string[], start: number, end: number) => Map<string, number[]>;

// ---- functions of unit_rows.js

/** `orders` has the orders of the month by unit. */
export type RowsOf = (report: Report, orders: Map<number | null, {text: string}[]>) => Row[];

/** The rows in which all words of a search are. */
export type FindRows = (rows: Row[], search: string, textOf: (row: Row) => string) => Row[];

/** The rows sorted by a value, equal ones by the unit's number. */
export type SortRows = (rows: Row[], value: (row: Row) => string | number, down: boolean) => Row[];

/** What the own units of a region will owe, what they have, and how many men of which starve if no money comes in. */
export type UpkeepOf = (
  region: Region, maintenance: number,
) => { owed: number; has: number; starving: { unit: Unit; men: number }[] };

export type ChangesOf = (before: Unit[], now: Unit[]) => Change[];

/**
 * What changed for the faction, in each region, and for each unit. Strangers are `seen` or `gone` in regions that both
 * reports have.
 */
export type ChangesBetween = (
  before: Report, now: Report,
) => {
  faction: Change[];
  regions: { region: Region; changes: Change[]; seen: Unit[]; gone: Unit[] }[];
  units: { number: number; name: string; words: string[]; changes: Change[] }[];
};

export type Others = (there: Region | undefined, places: Map<number, UnitPlace>) => Unit[];

export type UnitChange = (
  old?: UnitPlace, fresh?: UnitPlace,
) => {number: number, name: string, words: string[], changes: Change[]};

// ---- functions of units_panel.js

export type RowsIn = (report: Report | null) => Row[];

export type NewsOf = (report: Report) => (HTMLElement | null)[];

/** Adds the first rows at once, and the others as the browser has time. */
export type AddRows = (body: HTMLElement, found: Row[], from?: number) => void;

export type ChangesOfUnits = (before: Report, now: Report) => HTMLElement[];

// ---- functions of words.js

/** What an order did. `asked` is the amount that it asked for, or null where it names none. */
export type DoneWords = (verb: string, number: number, asked?: number | null) => string;

/** Whether the number of an order that was done counts what it brought. */
export type BringsAmount = (verb: string) => boolean;

export type FaultOf = (table: Record<string, string>) => (number: number, name?: string) => string;

export type Counted = (number: number, one: string, many?: string) => string;

/** How much of a mailing is right. */
export type CountedFaults = (mailing: Pick<Mailing, 'orders' | 'faults'>) => string;

// ---- functions of world.js

/** The report that a text is, its names read by the world. */
export type ReadReport = (text: string) => Report;

/** The world that a value of world.json gives, or null. */
export type WorldOf = (value: any) => World | null;
