// Palabras para entrar y salir, y los nombres de las pantallas.

/** @type {Record<string, import("../../parts/words.js").Text>} */
export const words = {
    "signing.in": "Entrar",
    "signing.out": "Salir",
    "signing.key": "Clave",
    "signing.key-hint": ({ whole }) =>
        `La clave que le dio la agencia. En una clave de ${whole} caracteres, los guiones, los espacios y las mayúsculas no importan.`,
    "signing.key-short": ({ count, whole }) =>
        `Le faltan caracteres: tiene ${count} de ${whole}. Revise la tarjeta o la carta.`,
    "signing.key-long": ({ count, whole }) =>
        `Le sobran caracteres: tiene ${count} y deben ser ${whole}. Revise la tarjeta o la carta.`,
    "signing.key-sign": ({ signs }) => `Revise esto: ${signs}. Puede ser un 0 o un 1.`,
    "signing.job": "Entrar como",
    "signing.job-wants": "Esta clave es de otra función. Elija la suya.",
    "signing.rider-job": "sus propios viajes",
    "signing.clerk-job": "llamadas y reservas",
    "signing.examiner-job": "solicitudes",
    "signing.officer-job": "apelaciones y suspensiones",
    "signing.dispatcher-job": "el día y sus vehículos",
    "signing.driver-job": "las paradas de su vehículo",
    "signing.admin-job": "claves, lugares, tarifas",
    "signing.key-none": "Escriba la clave.",
    "signing.key-much": ({ most }) =>
        `Esto no es una clave: una clave tiene como máximo ${most} caracteres. Revise la tarjeta o la carta.`,
    "signing.key-strange": "Esto no es una clave: una clave no lleva letras con acento, emojis ni letras de otros alfabetos. Revise la tarjeta o la carta.",
    "signing.stay": "Mantener la sesión abierta en este teléfono o computadora",
    "signing.stay-hint": "Solo si nadie más lo usa. Este navegador guarda entonces su clave hasta que usted salga.",
    "signing.stays-here": ({ rider }) =>
        `El pasajero ${rider} mantiene la sesión abierta en este teléfono o computadora.`,
    "signing.go-on": ({ rider }) => `Continuar como pasajero ${rider}`,
    "signing.stay-gone": "Esta clave ya no es válida, y este navegador la olvidó. Pida su clave nueva a la agencia.",
    "signing.show-key": "Mostrar la clave",
    "signing.hide-key": "Ocultar la clave",
    "signing.rider": "Pasajero",
    "signing.clerk": "Recepcionista",
    "signing.examiner": "Examinador",
    "signing.officer": "Oficial de apelaciones",
    "signing.dispatcher": "Despachador",
    "signing.driver": "Conductor",
    "signing.admin": "Administrador",
    "signing.signed-out": "Salió. Este navegador olvidó la clave.",
    "signing.waiting": "¿Salir antes de que el sistema responda?",
    "signing.waiting-detail": "Algo que usted envió todavía no tiene respuesta. No se sabe si se hizo.",
    "signing.out-anyway": "Sí, salir",
    "signing.idle-out": ({ minutes }) =>
        `Nadie hizo nada durante ${minutes} minutos, así que esta ventana se cerró.`,
    "signing.idle-soon": "En un minuto se cerrará su sesión. Pulse cualquier tecla para quedarse.",
    "signing.more-troubles": ({ count }) => `Y ${count} más.`,
    "signing.all-troubles": "Qué más está mal",
};
