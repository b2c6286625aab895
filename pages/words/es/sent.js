// Palabras de lo que se envió mientras nadie podía ver la respuesta.

/** @type {Record<string, import("../../parts/words.js").Text>} */
export const words = {
    "sent.heading": "Enviado antes: qué resultó",
    "sent.read": "Ya lo leí",
    "sent.note": "Estos viajes se pidieron antes. Esto es lo que resultó:",
    "sent.booked": ({ trip, rider, when, day, window, from, to }) =>
        `El viaje ${trip} se reservó para ${rider}${when && ` ${when}`}: ${day}, recogida ${window}, desde ${from} hasta ${to}.`,
    "sent.changed": ({ trip, rider, when, day, window, from, to }) =>
        `El viaje ${trip} de ${rider} se cambió${when && ` ${when}`}: ${day}, recogida ${window}, desde ${from} hasta ${to}.`,
    "sent.denied": ({ rider, day, said, from, to }) =>
        `No reservado para ${rider}: ${day}, ${said ? `${said}, ` : ""}desde ${from} hasta ${to}.`,
    "sent.cut": ({ rider, day, said, from, to }) =>
        `Sin terminar para ${rider}: ${day}, ${said ? `${said}, ` : ""}desde ${from} hasta ${to}. La página se cargó otra vez mientras se pedía. Resérvelo de nuevo.`,
    "sent.unsent": ({ rider, day, said, from, to }) =>
        `No enviado para ${rider}: ${day}, ${said ? `${said}, ` : ""}desde ${from} hasta ${to}. La página se cargó de nuevo antes de su turno. Resérvelo otra vez.`,
    "sent.left": ({ rider, day, said, from, to }) =>
        `No enviado para ${rider}: ${day}, ${said ? `${said}, ` : ""}desde ${from} hasta ${to}. Usted salió antes de que pudiéramos buscar otros viajes a esa hora. Lo que escribió se conserva. Presione Reservar.`,
    "sent.early": ({ rider, day, said, from, to }) =>
        `No enviado para ${rider}: ${day}, ${said ? `${said}, ` : ""}desde ${from} hasta ${to}. La ida llega después de esa hora. Reserve el regreso para más tarde.`,
    "sent.change-denied": ({ trip, rider, day, said, from, to }) =>
        `El viaje ${trip} de ${rider} no se cambió. Se pidió: ${day}, ${said ? `${said}, ` : ""}desde ${from} hasta ${to}.`,
    "sent.change-cut": ({ trip, rider, day, said, from, to }) =>
        `El cambio del viaje ${trip} de ${rider} quedó sin terminar: ${day}, ${said ? `${said}, ` : ""}desde ${from} hasta ${to}. La página se cargó otra vez mientras se pedía. Cambie el viaje de nuevo.`,
    "sent.change-unsent": ({ trip, rider, day, said, from, to }) =>
        `El cambio del viaje ${trip} de ${rider} no se envió: ${day}, ${said ? `${said}, ` : ""}desde ${from} hasta ${to}. La página se cargó de nuevo antes de su turno. Cambie el viaje otra vez.`,
    "sent.change-left": ({ trip, rider, day, said, from, to }) =>
        `El cambio del viaje ${trip} de ${rider} no se envió: ${day}, ${said ? `${said}, ` : ""}desde ${from} hasta ${to}. Usted salió antes de que pudiéramos buscar otros viajes a esa hora. Lo que escribió se conserva. Presione Cambiar.`,
    "sent.sending": ({ rider, day, said, from, to }) =>
        `Se está enviando para ${rider}: ${day}, ${said ? `${said}, ` : ""}desde ${from} hasta ${to}.`,
    "sent.offered": ({ trip, rider, when, day, window, said, from, to }) =>
        `La oficina le ofreció a ${rider} otra hora${when && ` ${when}`} y apartó el viaje ${trip}: ${day}, recogida ${window}, desde ${from} hasta ${to}. Se pidió: ${said}.`,
    "sent.nothing": ({ rider, day, said, from, to }) =>
        `No reservado para ${rider}: ${day}, ${said ? `${said}, ` : ""}desde ${from} hasta ${to}. La ventana se cerró mientras se pedía. Resérvelo de nuevo.`,
    "sent.change-nothing": ({ trip, rider, day, said, from, to }) =>
        `El viaje ${trip} de ${rider} no se cambió. Se pidió: ${day}, ${said ? `${said}, ` : ""}desde ${from} hasta ${to}. La ventana se cerró mientras se pedía. Cambie el viaje de nuevo.`,
    "sent.cancelled": ({ trip, rider, day, window, from, to }) =>
        `El viaje ${trip} de ${rider} está cancelado: ${day}, recogida ${window}, desde ${from} hasta ${to}.`,
    "sent.stands": ({ trip, rider, when, day, window, from, to }) =>
        `El viaje ${trip} de ${rider} no se canceló, porque la ventana se cerró mientras se pedía. Seguía en pie${when && ` ${when}`}: ${day}, recogida ${window}, desde ${from} hasta ${to}.`,
    "sent.at": ({ time, day }) => (day ? `el ${day} a las ${time}` : `a las ${time}`),
    "sent.since-booked": "Está reservado ahora.",
    "sent.since-stands": "Sigue en pie. Cancélelo de nuevo.",
    "sent.since-waits": "Falta una respuesta.",
    "sent.since-cancelled": "Después se canceló.",
    "sent.since-moved": ({ day, window }) => `Después se cambió: ${day}, recogida ${window}.`,
    "sent.since-over": ({ status }) => `Desde entonces: ${status}.`,
    "sent.said-around": ({ time }) => `alrededor de las ${time}`,
    "sent.said-not-before": ({ time }) => `no antes de las ${time}`,
    "sent.said-by": ({ time }) => `llegar a más tardar a las ${time}`,
};
