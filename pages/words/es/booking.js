// Palabras de las reservas, los boletos y los viajes de un pasajero.

/** @type {Record<string, import("../../parts/words.js").Text>} */
export const words = {
    "booking.booked": "reservado",
    "booking.cancelled": "cancelado",
    "booking.ridden": "realizado",
    "booking.missed-rider": "no se presentó",
    "booking.missed-operator": "la agencia no cumplió",
    "booking.trip": "Viaje",
    "booking.day": "Día",
    "booking.pickup": "Recogida",
    "booking.said-around": ({ time }) => `alrededor de las ${time}`,
    "booking.said-not-before": ({ time }) => `no antes de las ${time}`,
    "booking.said-by": ({ time }) => `llegar a más tardar a las ${time}`,
    "booking.ticket-pickup": ({ trip }) => `Viaje ${trip}`,
    "booking.from": "Desde",
    "booking.to": "Hasta",
    "booking.by": "Llegar antes de",
    "booking.by-too": "Y llegar antes de",
    "booking.who": "Quién",
    "booking.vehicle": "Vehículo",
    "booking.to-pay": "A pagar",
    "booking.agency": "Agencia",
    "booking.do": "Acciones",
    "booking.rider": "pasajero",
    "booking.rider you": "usted",
    "booking.attendant": "asistente",
    "booking.companions": ({ count }) => (count === 1 ? "acompañante" : `${count} acompañantes`),
    "booking.before-wish": ({ minutes, wish }) =>
        `${minutes} ${minutes === 1 ? "minuto" : "minutos"} antes de las ${wish}`,
    "booking.after-wish": ({ minutes, wish }) =>
        `${minutes} ${minutes === 1 ? "minuto" : "minutos"} después de las ${wish}`,
    "booking.fare-each": ({ due, fare }) => `${due} (${fare} por persona)`,
    "booking.ticket": ({ trip }) => `Viaje ${trip}`,
    "booking.ticket-print": "Imprimir",
    "booking.print-of": ({ trip }) => `Imprimir el boleto del viaje ${trip}`,
    "booking.print-all": "Imprimir todo",
    "booking.day-wants": "Elija un día desde mañana hasta 14 días después.",
    "booking.day-closed": ({ day, name }) => `${day}: sin servicio${name && ` (${name})`}`,
    "booking.closed-wants": ({ day, name }) =>
        `No hay servicio el ${day}${name && ` (${name})`}. Elija otro día.`,
    "booking.day-gone": "El día que se eligió ya llegó. Elija uno de estos días.",
    "booking.choose": "Elija…",
    "booking.on-map": "Elegir en el mapa",
    "booking.map": "Mapa de la agencia. Los campos Desde y Hasta dicen lo mismo.",
    "booking.map-hint": "El primer clic es Desde, el segundo es Hasta.",
    "booking.from-is": ({ place }) => `Desde: ${place}`,
    "booking.to-is": ({ place }) => `Hasta: ${place}`,
    "booking.mark-from": "DESDE",
    "booking.mark-to": "HASTA",
    "booking.mark-both": "DESDE, HASTA",
    "booking.optional": "opcional",
    "booking.wish-as": "9:15a",
    "booking.swap": "Invertir",
    "booking.swapped": "Origen y destino se invirtieron.",
    "booking.day-has": ({ day }) => `${day}, con viajes`,
    "booking.days-several": ({ first, last }) => `${first} a ${last}, uno o más`,
    "booking.days-underlined": "subrayado: reservado",
    "booking.days-one": ({ first, last }) => `${first} a ${last}`,
    "booking.next-caller": "Siguiente llamada",
    "booking.another": "Reservar otro",
    "booking.window-van": ({ van }) => `Horario de recogida · ${van}`,
    "booking.requested": "Pedido",
    "booking.rider-number": ({ rider }) => `Pasajero n.º ${rider}`,
    "booking.paper-foot": ({ minutes, telephone }) =>
        `Esté en la puerta al comienzo del horario. El conductor espera ${minutes} minutos.${telephone ? ` Para cambiar o cancelar, llame al ${telephone}.` : ""}`,
    "booking.offer-others": "Ofrecer otras horas",
    "booking.other-pickup": ({ window }) => `Recogida ${window}`,
    "booking.searched-name": "Se buscó",
    "booking.rule": "Regla",
    "booking.counted": ({ section }) => `Cuenta como denegación por falta de capacidad, ${section}`,
    "booking.wish": "Hora de recogida",
    "booking.wish-hint": "Como 9, 9:15 am, mediodía o 1330.",
    "booking.wish-wants": "Escriba la hora de recogida.",
    "booking.back": "Recogida de regreso",
    "booking.back-hint": "Para un viaje de ida y vuelta. Si no, déjelo vacío.",
    "booking.back-by": "Regreso, llegar a más tardar",
    "booking.back-by-early": "El regreso tiene que llegar después de la ida.",
    "booking.back-mode": "¿Qué es más importante al regreso?",
    "booking.back-early": "El regreso tiene que ser después de la ida.",
    "booking.by-hint": "Puede dejarlo vacío.",
    "booking.by-wants": "Escriba la hora a la que hay que estar allí.",
    "booking.by-early": "Con esta hora de recogida no se puede llegar tan temprano.",
    "booking.mode": "¿Qué es más importante?",
    "booking.mode-around": "A eso de",
    "booking.mode-not-before": "No antes de",
    "booking.mode-by": "Llegar antes",
    "booking.with-companion": "Acompañante (misma tarifa)",
    "booking.with-attendant": "Asistente (gratis)",
    "booking.book": ({ rider, count }) =>
        count > 1 ? `Reservar ${count} viajes para ${rider}` : `Reservar el viaje para ${rider}`,
    "booking.book-for": ({ rider }) => `Reservar para ${rider}`,
    "booking.book-for you": ({ rider }) => `Reservar un viaje para ${rider}`,
    "booking.same-question": ({ count, rider }) => (
        count === 1
            ? `${rider} ya tiene este viaje. ¿Reservarlo otra vez?`
            : `${rider} ya tiene ${count} de estos viajes. ¿Reservarlos otra vez?`
    ),
    "booking.same-question you": ({ count }) => (
        count === 1
            ? "Usted ya tiene este viaje. ¿Reservarlo otra vez?"
            : `Usted ya tiene ${count} de estos viajes. ¿Reservarlos otra vez?`
    ),
    "booking.same-trip": ({ trip, day, window, from, to }) =>
        `Viaje ${trip}: ${day}, recogida ${window}, desde ${from} hasta ${to}`,
    "booking.same-yes": "Sí, reservar otra vez",
    "booking.way-question": ({ count, rider }) => (
        count === 1
            ? `${rider} hace el mismo recorrido ese día a otra hora. ¿Reservar también este viaje?`
            : `${rider} tiene ${count} viajes con el mismo recorrido a otras horas. ¿Reservar también estos?`
    ),
    "booking.way-question you": ({ count }) => (
        count === 1
            ? "Usted hace el mismo recorrido ese día a otra hora. ¿Reservar también este viaje?"
            : `Usted tiene ${count} viajes con el mismo recorrido a otras horas. ¿Reservar también estos?`
    ),
    "booking.way": "Estos viajes hacen el mismo recorrido a otra hora:",
    "booking.way-yes": "Sí, reservar también este",
    "booking.leg": ({ day, from, to, said }) => `${day}, ${said}, desde ${from} hasta ${to}`,
    "booking.searched": ({ first, last }) => `Buscamos recogidas entre las ${first} y las ${last}.`,
    "booking.meets-question": ({ rider }) =>
        `${rider} tiene un viaje a esa hora. ¿Reservar de todos modos?`,
    "booking.meets-question you": "Usted tiene un viaje a esa hora. ¿Reservar de todos modos?",
    "booking.meets": "Estos viajes son a la misma hora:",
    "booking.nowhere-question": ({ place }) =>
        `Desde y Hasta son el mismo lugar, ${place}. ¿Reservar de todos modos?`,
    "booking.nowhere": ({ place }) => `Desde y Hasta son el mismo lugar, ${place}.`,
    "booking.all-the-same": "Sí, reservarlo",
    "booking.change-yes": "Sí, cambiarlo",
    "booking.changed-for": ({ trip, rider }) => `El viaje ${trip} quedó cambiado para ${rider}`,
    "booking.not-changed": ({ trip, day, window }) =>
        `No se cambió. El viaje ${trip} queda como estaba: ${day}, recogida ${window}.`,
    "booking.asked-for": ({ leg }) => `Se pidió: ${leg}.`,
    "booking.stands": ({ trip, day, window, from, to }) =>
        `La ida sigue en pie: viaje ${trip}, ${day}, recogida ${window}, desde ${from} hasta ${to}. Todavía no hay regreso.`,
    "booking.early-back": ({ time }) =>
        `La ida puede llegar hasta las ${time}, después de que empiece este regreso`,
    "booking.early-later": ({ time }) => `Pedir un regreso no antes de las ${time}`,
    "booking.early-as-said": ({ said }) => `Pedirlo como se dijo: ${said}`,
    "booking.if-agreed": "Si el pasajero está de acuerdo, probamos estas en orden y reservamos la primera que se pueda:",
    "booking.if-agreed you": "Si usted está de acuerdo, probamos estas en orden y reservamos la primera que se pueda:",
    "booking.try-either": "Probar horas anteriores y posteriores",
    "booking.try-earlier": "Solo horas anteriores",
    "booking.try-later": "Solo horas posteriores",
    "booking.tried-earlier": "También se probaron las horas anteriores y ningún vehículo podía.",
    "booking.tried-later": "También se probaron las horas posteriores y ningún vehículo podía.",
    "booking.others-denied": "También se probaron las otras horas y ningún vehículo podía. Pruebe otro día.",
    "booking.mark": "Guardar una copia para quien defiende al pasajero",
    "booking.mark-of": ({ asked }) => `Guardar una copia para quien defiende al pasajero: ${asked}`,
    "booking.mark-hint": "Una copia del archivo del sistema puede mostrar después por qué ningún vehículo podía hacer este viaje. Pídala antes de reservar otra cosa.",
    "booking.marked": ({ time }) =>
        `Marcado a las ${time}. El sitio copia el archivo del sistema en el minuto siguiente a recibir la marca.`,
    "booking.booked-for": ({ trip, rider }) => `El viaje ${trip} está reservado para ${rider}`,
    "booking.denied-for": ({ leg }) => `No reservado: ${leg}`,
    "booking.asking": "se está pidiendo…",
    "booking.not-asked": "no se pidió, porque la ida no está reservada.",
    "booking.result": ({ booked, count, rider, open }) => (
        open
            ? `El sistema ofrece otra hora para ${rider}.`
            : count === 1
            ? (
                  booked
                      ? `El viaje está reservado para ${rider}.`
                      : `El viaje no está reservado para ${rider}.`
              )
            : booked === count
            ? `${count} viajes están reservados para ${rider}`
            : `${booked} de ${count} viajes están reservados para ${rider}`
    ),
    "booking.result you": ({ booked, count, open }) => (
        open
            ? "El sistema le ofrece otra hora."
            : count === 1
            ? (booked ? "Su viaje está reservado." : "Su viaje no está reservado.")
            : booked === count
            ? `Sus ${count} viajes están reservados`
            : `${booked} de sus ${count} viajes están reservados`
    ),
    "booking.result-of-change": ({ booked, trip, rider, open }) => (
        open
            ? `El sistema ofrece otra hora para ${rider}.`
            : booked
            ? `El viaje ${trip} quedó cambiado para ${rider}.`
            : `El viaje ${trip} no se cambió.`
    ),
    "booking.result-of-change you": ({ booked, trip, open }) => (
        open
            ? "El sistema le ofrece otra hora."
            : booked
            ? `Su viaje ${trip} quedó cambiado.`
            : `Su viaje ${trip} no se cambió.`
    ),
    "booking.offer-after": ({ offer, minutes, time }) =>
        `El sistema ofrece las ${offer}, ${minutes} ${minutes === 1 ? "minuto" : "minutos"} después de las ${time}`,
    "booking.offer-before": ({ offer, minutes, time }) =>
        `El sistema ofrece las ${offer}, ${minutes} ${minutes === 1 ? "minuto" : "minutos"} antes de las ${time}`,
    "booking.offer-back-early": ({ offer, time }) =>
        `El regreso empieza a las ${offer}, y la ida puede llegar hasta las ${time}`,
    "booking.offer-trip": ({ trip, day, window, from, to, said }) =>
        `Viaje ${trip}: ${day}, recogida ${window}, desde ${from} hasta ${to}. Se pidió: ${said}.`,
    "booking.offer-asks": "Se conserva solo si el pasajero dice que sí. Si dice que no, lo cancela la agencia y no cuenta contra el pasajero.",
    "booking.offer-asks you": "Se conserva solo si usted dice que sí. Si dice que no, lo cancela la agencia y no cuenta en su contra.",
    "booking.offer-changed-elsewhere": "El viaje se cambió a esta hora en otra computadora. Se conserva solo si el pasajero dice que sí. Si dice que no, cambie el viaje abajo o cancélelo.",
    "booking.offer-changed-elsewhere you": "Su viaje se cambió a esta hora en otra computadora. Se conserva solo si usted dice que sí. Si dice que no, cambie el viaje abajo o cancélelo.",
    "booking.offer-of-change": "Se conserva solo si el pasajero dice que sí. Si dice que no, el viaje vuelve a su hora anterior.",
    "booking.offer-of-change you": "Se conserva solo si usted dice que sí. Si dice que no, el viaje vuelve a su hora anterior.",
    "booking.offer-yes": ({ trip }) => `Sí, conservar el viaje ${trip}`,
    "booking.offer-no": ({ trip }) => `No, cancelar el viaje ${trip}`,
    "booking.offer-back": ({ trip, window }) => `No, devolver el viaje ${trip} a ${window}`,
    "booking.offers-open": ({ rider, count }) => (
        count === 1
            ? `Una oferta espera respuesta de ${rider}`
            : `${count} ofertas esperan respuesta de ${rider}`
    ),
    "booking.offers-open you": ({ count }) => (
        count === 1 ? "Una oferta espera su respuesta" : `${count} ofertas esperan su respuesta`
    ),
    "booking.offer-kept": ({ trip }) => `El viaje ${trip} se conserva.`,
    "booking.offer-off": ({ trip }) =>
        `El viaje ${trip} se canceló entretanto, así que la oferta terminó.`,
    "booking.offer-given-up": "La oferta no se aceptó y quedó anulada.",
    "booking.offer-is-back": ({ trip, day, window }) =>
        `El viaje ${trip} volvió: ${day}, recogida ${window}.`,
    "booking.offer-moved": ({ trip, day, window }) =>
        `El viaje ${trip} pasó entretanto a otra hora: ${day}, recogida ${window}.`,
    "booking.offer-looking": "Se está mirando si otra persona ya respondió…",
    "booking.offer-sure": ({ trip }) => `¿Cancelar el viaje ${trip}?`,
    "booking.offer-sure-back": ({ trip }) => `¿Devolver el viaje ${trip} a su hora anterior?`,
    "booking.offer-sure-detail": ({ day, window }) =>
        `${day}, recogida ${window}. Si después le dijo que sí a la agencia, ese sí ya no vale. No cuenta en su contra.`,
    "booking.offer-unsure": ({ trip }) => `El viaje ${trip} sigue como está. No se canceló nada.`,
    "booking.offer-begun": "Su horario de recogida ya empezó, así que ya no se puede responder. Llame a la persona y a despacho. Si no se presenta, no cuenta en su contra: nunca aceptó este viaje.",
    "booking.offer-begun you": "Su horario de recogida ya empezó, así que ya no se puede responder. Llame a la agencia. Si usted no viaja, no cuenta en su contra: nunca aceptó este viaje.",
    "booking.offer-counted": "Cuenta como denegación de la hora que pidió el pasajero, y no como cancelación del pasajero.",
    "booking.offer-counted you": "Cuenta como denegación de la hora que usted pidió, y no como cancelación suya.",
    "booking.change-of": ({ trip, rider }) => `Cambiar el viaje ${trip} de ${rider}`,
    "booking.leave": "Cerrar",
    "booking.change": "Cambiar",
    "booking.cancel": "Cancelar",
    "booking.cancel-of": ({ trip, rider }) => `Cancelar el viaje ${trip} de ${rider}`,
    "booking.again": "Reservar de nuevo",
    "booking.again-of": ({ trip }) => `Reservar de nuevo el viaje ${trip} en otro día`,
    "booking.more-of": ({ trip }) => `Más para el viaje ${trip}`,
    "booking.cancel-question": ({ trip, rider }) => `¿Cancelar el viaje ${trip} de ${rider}?`,
    "booking.cancel-detail": ({ day, window, from, to }) =>
        `${day}, recogida ${window}, desde ${from} hasta ${to}. No se puede deshacer.`,
    "booking.cancel-yes": ({ trip }) => `Sí, cancelar el viaje ${trip}`,
    "booking.cancelled-elsewhere": ({ trip }) => `El viaje ${trip} se canceló.`,
    "booking.cancelled-already": ({ trip, rider }) => `El viaje ${trip} de ${rider} ya estaba cancelado.`,
    "booking.cancelled-now": ({ trip, rider }) => `El viaje ${trip} de ${rider} está cancelado.`,
    "booking.bus-hours": ({ day, first, last }) =>
        `El ${day} los autobuses circulan de ${first} a ${last}, según el archivo de la agencia. Cada línea tiene su propio horario.`,
    "booking.was-for": ({ leg }) => `Era para: ${leg}.`,
    "booking.reading": "Se están leyendo los viajes…",
    "booking.list-past": "Viajes anteriores",
    "booking.list-off": "Viajes cancelados",
    "booking.count-past": ({ count }) => (count === 1 ? "1 anterior" : `${count} anteriores`),
    "booking.count-off": ({ count }) => (count === 1 ? "1 cancelado" : `${count} cancelados`),
    "booking.card-pickup": ({ window }) => `Recogida entre las ${window.replace("–", " y las ")}`,
    "booking.card-way": ({ from, to }) => `Desde ${from} hasta ${to}.`,
    "booking.card-by": ({ by }) => `Estar allí a más tardar a las ${by}.`,
    "booking.card-more": ({ trip, said, due, who, vehicle }) =>
        `Viaje ${trip}. ${said ? `Pedido: ${said}. ` : ""}A pagar: ${due}. Quién: ${who}. ${vehicle}.`,
    "booking.trips-of": ({ rider }) => `Viajes de ${rider}`,
};
