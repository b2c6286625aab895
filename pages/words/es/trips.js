// Palabras de los viajes de un pasajero, y de dónde está la camioneta de hoy.

/** @type {Record<string, import("../../parts/words.js").Text>} */
export const words = {
    "trips.list-today": "Hoy",
    "trips.list-coming": "Próximos viajes",
    "trips.calendar": "Guardar mis viajes en mi calendario",
    "trips.calendar-summary": ({ agency }) => `Viaje con ${agency}`,
    "trips.calendar-canceled": ({ agency }) => `Cancelado: viaje con ${agency}`,
    "trips.calendar-text": ({ trip, window, from, to, by, canceled, telephone }) =>
        [
            canceled ? `El viaje ${trip} está cancelado.` : `Viaje ${trip}.`,
            `Recogida ${window}, de ${from} a ${to}.`,
            by,
            canceled ? "" : "Si este viaje cambia, guarde sus viajes de nuevo.",
            telephone && `Ayuda: ${telephone}`
        ].filter(Boolean).join(" "),
    "trips.none-later": "No hay otros viajes próximos.",
    "trips.none-coming": "No hay viajes próximos.",
    "trips.outcome": "Resultado",
    "trips.way": "Desde y hasta",
    "trips.to": "a",
    "trips.by-time": ({ by }) => `estar allí a más tardar a las ${by}`,
    "trips.closed": ({ name }) =>
        `Ese día no hay servicio${name && `: ${name}`}. Llame al pasajero.`,
    "trips.closed-rider": ({ name }) =>
        `Ese día no hay servicio${name && `: ${name}`}. La agencia le llamará.`,
    "trips.today-window": "Horario de recogida",
    "trips.today-trip": ({ trip }) => `Viaje ${trip}.`,
    "trips.today-waits": ({ van }) => `${van}: aún no hay noticias`,
    "trips.today-off": "Cancelado. No viene ningún vehículo.",
    "trips.today-over": ({ van }) => `La hora de recogida ya pasó y no hay noticias de ${van}`,
    "trips.today-arrived": ({ van, time }) => `${van} llegó al punto de recogida a las ${time}`,
    "trips.today-aboard": ({ van, time }) => `A bordo de ${van} desde las ${time}`,
    "trips.today-ended": ({ van, time }) => `${van} informó del fin de este viaje a las ${time}`,
    "trips.tap-arrived": ({ van, trip, time }) =>
        `${van} llegó para el viaje ${trip} a las ${time}.`,
    "trips.tap-aboard": ({ van, trip, time }) =>
        `${van} recogió al pasajero del viaje ${trip} a las ${time}.`,
    "trips.tap-dropped": ({ van, trip, time }) =>
        `${van} dejó al pasajero del viaje ${trip} a las ${time}.`,
    "trips.tap-skipped": ({ van, trip, time }) =>
        `${van} omitió una parada del viaje ${trip} a las ${time}.`,
    "trips.tap-no-show": ({ van, trip, time }) =>
        `${van} informó a las ${time} que el pasajero del viaje ${trip} no se presentó.`,
    "trips.tap-missed": ({ van, trip, time }) =>
        `${van} informó a las ${time} que no recogió al pasajero del viaje ${trip}.`,
    "trips.van-silent": ({ van, minutes }) =>
        `Sin noticias de ${van} desde hace ${minutes < 60 ? `${minutes} min` : `${Math.floor(minutes / 60)} h ${minutes % 60} min`}`,
    "trips.van-behind": ({ van, minutes }) => `${van} lleva ${minutes} minutos de atraso.`,
    "trips.van-on-time": ({ van }) => `${van} va a tiempo.`,
    "trips.van-next": "Esta es la próxima parada.",
    "trips.van-due": ({ time }) => `Debe llegar a eso de las ${time}.`,
    "trips.van-past": ({ minutes }) => `${minutes} min después del horario`,
    "trips.van-planned": ({ time }) => `Prevista a las ${time}.`,
    "trips.van-checked": ({ time }) => `Datos de las ${time}.`,
    "trips.call-agency": "Si la camioneta se retrasa, llame al",
    "trips.call-dispatch": ({ van }) => `Pregunte a la central dónde está ${van}.`,
    "trips.call-driver": ({ van }) => `Llame al conductor de ${van}.`,
};
