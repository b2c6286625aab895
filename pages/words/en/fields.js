// Words of fields: what each takes, and how it understood what was typed.

/** @type {Record<string, import("../../parts/words.js").Text>} */
export const words = {
    "fields.number": ({ least, most }) => `Write a whole number from ${least} to ${most}.`,
    "fields.money": ({ most }) => `Write an amount in dollars from 0 to ${most}, as 3.50.`,
    "fields.time": ({ example }) => `Enter a time, such as ${example}.`,
    "fields.understood": ({ time }) => `Read as ${time}`,
    "fields.waits": "Waiting for the desk to answer…",
    "fields.which-half": ({ early, late }) => `${early} or ${late}?`,
    "fields.which-question": ({ field, early, late }) => `${field}: ${early} or ${late}?`,
    "fields.early-key": "a",
    "fields.late-key": "p",
    "fields.day": ({ least, most }) => `Choose a day from ${least} to ${most}.`,
    "fields.text": ({ most }) =>
        `Write 1 to ${most} plain letters, digits and signs, without accents and new lines.`,
    "fields.reasons": ({ most }) => `Write 1 to ${most} letters, digits and signs.`,
    "fields.count": ({ count, most }) => `${count} of ${most}`,
    "fields.sent-as": "It is sent as: ",
    "fields.lost": ({ signs }) =>
        `The letter cannot have these characters: ${signs}. Say it in other words.`,
    "fields.choice": "Choose one from the list.",
    "fields.choose-one": "Choose one.",
    "fields.tick": "Tick it or leave it.",
    "fields.yes-no": "Choose yes or no.",
    "fields.place": "Choose a place: type part of its name, or its number.",
    "fields.place-none": "No place has this in its name. Type another part of it, or its number.",
    "fields.address-choice": ({ id, street }) => `${street} (address ${id})`,
    "fields.place-others": "Another rider’s place",
    "fields.place-many": ({ count }) =>
        `${count} places have this in their names. Choose one from the list, or type more.`,
    "fields.id": ({ most }) => `Write a whole number from 1 to ${most}.`,
    "fields.rider-hint": "A number, a name or a part of it, or a telephone number.",
    "fields.rider-type": "Name, number, or phone",
    "fields.rider-type-number": "Rider number",
    "fields.rider-next": ({ day, window }) => `Next: ${day ? `${day}, ` : "today "}${window}`,
    "fields.rider-no-next": "No upcoming trips",
    "fields.by-name": "Riders",
    "fields.by-number": "This number",
    "fields.by-telephone": "Riders with this phone number",
    "fields.rider-none": "Type a number, or choose a rider from the list.",
    "fields.vehicle-which": "Several vans fit. Choose one from the list.",
    "fields.vehicle-none": "Type a van’s name or number.",
    "fields.type-number": "Start here",
    "fields.other-number": ({ typed, action }) =>
        `${typed} is not shown yet: “${action}” shows it.`,
    "fields.telephone-none": "No rider has this telephone number. Type a number or a name.",
};
