// Palabras de la pantalla de recepción.

/** @type {Record<string, import("../../parts/words.js").Text>} */
export const words = {
    "clerk.trips": "Llamadas",
    "clerk.file": "Elegibilidad",
    "clerk.record-part": "Registros",
    "clerk.reading": "Cargando la elegibilidad…",
    "clerk.suspended": "No puede viajar hoy: está suspendido",
    "clerk.standing-presumed": "Puede viajar: elegibilidad presunta, la solicitud espera",
    "clerk.standing-appeal-overdue": "Puede viajar: la apelación espera su decisión",
    "clerk.standing-granted": "Puede viajar",
    "clerk.standing-none": "No puede viajar hoy: no hay elegibilidad aprobada",
    "clerk.standing-visitor": "Puede viajar: visitante",
    "clerk.standing-visitor-used": "No puede viajar hoy: visitante que ya usó los 21 días",
    "clerk.until": ({ day }) => `hasta el ${day}`,
    "clerk.conditions": ({ conditions }) => `Para ${conditions}.`,
    "clerk.home": "Domicilio",
    "clerk.usual": "Lugares habituales",
    "clerk.attendant-yes": "Viaja con un asistente",
    "clerk.note": "Nota",
    "clerk.record": "Registro de un pasajero",
    "clerk.record-hint": "Crea el registro, o cambia lo que dice sobre el asistente y la silla de ruedas. Los viajes ya reservados conservan lo que decía.",
    "clerk.number": "Número de pasajero",
    "clerk.kind": "Tipo",
    "clerk.resident": "Residente, que presenta una solicitud",
    "clerk.visitor": "Visitante, 21 días de un año",
    "clerk.attendant": "Puede traer un asistente, que viaja gratis",
    "clerk.wheelchair": "Viene en silla de ruedas y ocupa un lugar para silla",
    "clerk.put": "Guardar el registro",
    "clerk.as-resident": "Residente.",
    "clerk.as-visitor": "Visitante.",
    "clerk.has-attendant": "Puede traer un asistente.",
    "clerk.no-attendant": "No trae asistente.",
    "clerk.has-wheelchair": "Viene en silla de ruedas.",
    "clerk.no-wheelchair": "Viene sin silla de ruedas.",
    "clerk.change-question": ({ rider }) =>
        `${rider.replace(/^p/, "P")} ya está registrado. ¿Cambiar el registro?`,
    "clerk.change-detail": ({ rider, kind, record }) =>
        `Consta: ${kind} El sistema no dice lo demás. Desde ahora el registro de ${rider} dirá: ${record}`,
    "clerk.change-yes": ({ rider }) => `Sí, cambiar el registro del pasajero ${rider}`,
    "clerk.left": ({ rider }) =>
        `El registro de ${rider} no se guardó: usted salió antes de que pudiéramos ver lo que ya está registrado. Lo que escribió se conserva. Guárdelo otra vez.`,
    "clerk.is-new": ({ rider, record }) =>
        `${rider.replace(/^p/, "P")} es nuevo en el registro. ${record}`,
    "clerk.is-changed": ({ rider, record }) => `El registro de ${rider} se cambió. ${record}`,
    "clerk.roster-there": ({ count }) =>
        `Lista: ${count} ${count === "1" ? "pasajero" : "pasajeros"}`,
    "clerk.roster-none": "Buscar pasajeros por nombre: abrir una lista",
    "clerk.roster-hint": "Un archivo CSV con las columnas rider y name. Solo se lee en esta ventana y no se envía a ningún lugar.",
    "clerk.roster-file": "Lista de esta computadora",
    "clerk.roster-from": ({ source, count }) =>
        `De ${source}: ${count} ${count === "1" ? "pasajero" : "pasajeros"}.`,
    "clerk.server": "el servidor",
    "clerk.make-record": ({ rider }) => `Crear el registro de ${rider}`,
    "clerk.suspended-days": ({ from, to }) =>
        `No puede viajar hoy: está suspendido desde el ${from} hasta el ${to} inclusive`,
    "clerk.on-file": ({ day }) => `La elegibilidad registrada dura hasta el ${day}.`,
    "clerk.application-waits": ({ day }) =>
        `Hay una solicitud pendiente desde el ${day}. Vale a partir del día 21, hasta que alguien decida.`,
    "clerk.call-backs": "Devolver la llamada",
    "clerk.call-none": "Nadie espera una llamada.",
    "clerk.call-add": "Agregar a esta persona",
    "clerk.call-why": "Motivo",
    "clerk.call-done": "Ya se llamó",
    "clerk.call-done-of": ({ rider }) => `Ya se llamó: ${rider}`,
    "clerk.call": "Llamar",
    "clerk.call-of": ({ rider }) => `Llamar a ${rider}`,
    "clerk.since": ({ time }) => `desde ${time}`,
    "clerk.recent": "Recientes",
    "clerk.last-callers": "Últimas llamadas",
    "clerk.now": "ahora",
    "clerk.did-booked": ({ count }) => `reservó ${count}`,
    "clerk.did-changed": ({ count }) => `cambió ${count}`,
    "clerk.did-canceled": ({ count }) => `canceló ${count}`,
    "clerk.did-denied": "sin reservación",
    "clerk.who-calls": "¿Quién llama?",
    "clerk.who-hint": "Escriba cualquier parte del nombre, en cualquier orden. Presione Enter para el primer resultado. Siguiente llamada:",
    "clerk.who-slash": "desde cualquier lugar.",
    "clerk.today": "Hoy",
    "clerk.buses": "Horario de autobuses",
    "clerk.telephone": "Teléfono de la agencia",
    "clerk.more": ({ rider }) => `Más para ${rider}`,
    "clerk.conditional": "Condicional",
    "clerk.conditions-name": "Condiciones",
    "clerk.no-attendant-chip": "Sin asistente",
    "clerk.tiles-none": "No hay nada pendiente.",
    "clerk.tile-offers": ({ count }) => (
        count === 1 ? "oferta espera respuesta" : "ofertas esperan respuesta"
    ),
    "clerk.tile-suspended": ({ count }) => (
        count === 1 ? "viaje durante una suspensión" : "viajes durante una suspensión"
    ),
    "clerk.tile-in-part": ({ count }) => (
        count === 1 ? "elegibilidad parcial por terminar" : "elegibilidades parciales por terminar"
    ),
    "clerk.tile-applications": ({ count }) => (
        count === 1 ? "solicitud por decidir" : "solicitudes por decidir"
    ),
    "clerk.tile-appeals": ({ count }) => (
        count === 1 ? "apelación por decidir" : "apelaciones por decidir"
    ),
    "clerk.tile-grants": ({ count }) => (
        count === 1 ? "elegibilidad termina pronto" : "elegibilidades terminan pronto"
    ),
};
