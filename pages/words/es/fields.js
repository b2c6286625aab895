// Palabras de los campos: qué acepta cada uno y cómo entendió lo escrito.

/** @type {Record<string, import("../../parts/words.js").Text>} */
export const words = {
    "fields.number": ({ least, most }) => `Escriba un número entero de ${least} a ${most}.`,
    "fields.money": ({ most }) => `Escriba una cantidad en dólares de 0 a ${most}, como 3.50.`,
    "fields.time": ({ example }) => `Escriba una hora, como ${example}.`,
    "fields.understood": ({ time }) => `Se lee como ${time}`,
    "fields.waits": "Se espera la respuesta del sistema…",
    "fields.which-half": ({ early, late }) => `¿${early} o ${late}?`,
    "fields.which-question": ({ field, early, late }) => `${field}: ¿${early} o ${late}?`,
    "fields.early-key": "a",
    "fields.late-key": "p",
    "fields.day": ({ least, most }) => `Elija un día de ${least} a ${most}.`,
    "fields.text": ({ most }) =>
        `Escriba de 1 a ${most} letras, cifras y signos sencillos, sin acentos ni líneas nuevas.`,
    "fields.reasons": ({ most }) => `Escriba de 1 a ${most} letras, cifras y signos.`,
    "fields.count": ({ count, most }) => `${count} de ${most}`,
    "fields.sent-as": "Se envía así: ",
    "fields.lost": ({ signs }) =>
        `La carta no puede llevar estos caracteres: ${signs}. Dígalo con otras palabras.`,
    "fields.choice": "Elija uno de la lista.",
    "fields.choose-one": "Elija uno.",
    "fields.tick": "Márquelo o déjelo.",
    "fields.yes-no": "Elija sí o no.",
    "fields.place": "Elija un lugar: escriba una parte de su nombre, o su número.",
    "fields.place-none": "Ningún lugar tiene esto en su nombre. Escriba otra parte, o su número.",
    "fields.address-choice": ({ id, street }) => `${street} (dirección ${id})`,
    "fields.place-others": "Lugar de otro pasajero",
    "fields.place-many": ({ count }) =>
        `${count} lugares tienen esto en su nombre. Elija uno de la lista, o escriba más.`,
    "fields.id": ({ most }) => `Escriba un número entero de 1 a ${most}.`,
    "fields.rider-hint": "Un número, un nombre o una parte, o un teléfono.",
    "fields.rider-type": "Nombre, número o teléfono",
    "fields.rider-type-number": "Número de pasajero",
    "fields.rider-next": ({ day, window }) => `Próximo: ${day ? `${day}, ` : "hoy "}${window}`,
    "fields.rider-no-next": "Sin viajes próximos",
    "fields.by-name": "Pasajeros",
    "fields.by-number": "Este número",
    "fields.by-telephone": "Pasajeros con este teléfono",
    "fields.rider-none": "Escriba un número, o elija un pasajero de la lista.",
    "fields.vehicle-which": "Varios vehículos coinciden. Elija uno de la lista.",
    "fields.vehicle-none": "Escriba el nombre o el número del vehículo.",
    "fields.type-number": "Empiece aquí",
    "fields.other-number": ({ typed, action }) =>
        `${typed} todavía no se muestra: «${action}» lo muestra.`,
    "fields.telephone-none": "Ningún pasajero tiene este teléfono. Escriba un número o un nombre.",
};
