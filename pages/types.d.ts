// The records that the pages speak of, for the type checker alone.

declare const ofReply: unique symbol;
/** A denial. Only parts/desk.js makes one, of a reply: nothing else has the type. */
export type Denied = {
    readonly denied: string,
    readonly field?: string,
    readonly value?: undefined,
    readonly [ofReply]: true
};
/** Whoever asked went away before there was a reply. */
export type Left = {
    readonly denied: "left",
    readonly field?: undefined,
    readonly value?: undefined
};
export type Accepted<Value> = { value: Value, denied?: undefined, field?: undefined };
export type Reply<Value> = Accepted<Value> | Denied | Left;

export type Status = "booked" | "cancelled" | "ridden" | "missed-rider" | "missed-operator";
export type Wish = {
    day: string,
    wish: number,
    from: number,
    to: number,
    by: number | null,
    attendant: boolean,
    companions: number
};
export type Ticket = {
    trip: number,
    vehicle: number,
    window_from: number,
    window_to: number,
    fare: number,
    due: number
};
export type Trip = Wish & Ticket & { status: Status };
export type Standing = {
    standing: string,
    suspended: boolean,
    until?: string,
    conditions?: string[]
};

export type Place = {
    id: number,
    name?: string,
    note?: string,
    noted?: boolean,
    x?: number,
    y?: number,
    core?: boolean,
    private?: boolean | number | number[],
    latitude?: number,
    longitude?: number
};
export type Route = {
    id: number,
    name?: string,
    width: number,
    points: [number, number][],
    accessible?: boolean,
    days?: number[],
    first?: number,
    last?: number
};
export type Vehicle = { id: number, name?: string };
export type Appeal = { to: string, address: string, telephone: string, days: number };
export type Agency = {
    name: string,
    brand: import("./parts/brand.js").Brand,
    telephone: string,
    address: string,
    zone: string | undefined,
    first_weekday: number,
    place_word: string,
    clock: 12 | 24,
    languages: string[],
    wait_minutes: number,
    lead: number,
    idle_minutes: number,
    lock_minutes: number,
    appeal: Appeal,
    unproved: boolean,
    manifest_telephone: boolean,
    board_minutes: number,
    board_names: boolean,
    closed: { day: string, name?: string }[]
};
export type Rider = {
    rider: number,
    name: string,
    telephone: string,
    language: string,
    home: number | null,
    usual: number[],
    aid: string,
    attendant?: string,
    note: string
};

export type Control = HTMLInputElement | HTMLSelectElement | HTMLTextAreaElement;
/** What is read of a field. */
export type Read<Value> = { value?: Value, fault?: string, ambiguous?: number[] };
/** What stands in the fields of a form, by their names. A form whose functions name a type of
 * their own is checked by that one.
 */
export type Values = Record<string, any>;
export type Field<Value = any> = {
    name: string,
    label?: string,
    wants: string,
    control: Control,
    element: HTMLElement,
    read: () => Read<Value>,
    peek?: () => { value?: Value },
    write: (value: Value) => void,
    tell: (fault?: string | null) => void
};
/** short and sign stand in the dock of a phone; href leads elsewhere, as a telephone number does.
 */
export type ScreenPart = {
    id: string,
    name: string,
    draw: () => Given,
    short?: string,
    sign?: string,
    href?: string
};

export type Act = (event: any) => void;
export type Attributes = Record<string, unknown> & {
    key?: string | number | null,
    on?: Record<string, Act | null | false | undefined>
};
export type Part = { tag: string, attributes: Attributes, children: (string | Part | Element)[] };
export type Given = string | number | Part | Node | null | undefined | boolean | Given[];

/** What makes signals, which the checker's own table of browsers has only in part. */
export type Signals = typeof AbortSignal & {
    any: (signals: AbortSignal[]) => AbortSignal,
    timeout: (milliseconds: number) => AbortSignal
};
