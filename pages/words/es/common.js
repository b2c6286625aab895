// Palabras que usan todas las pantallas.

/** Lo que se comunica al sitio.
 * @type {Record<string, string>} */
const COUNTS = {
    denials: "una denegación",
    bookings: "una reserva",
    cancellations: "una cancelación",
    stops: "una parada",
    "no-shows": "una ausencia",
    notes: "una nota",
    disagreements: "un dato que no coincide",
    calls: "una llamada",
    reviews: "lo que se halló correcto de un viaje"
};

/** @type {Record<string, string>} */
const KINDS = { places: "lugar", routes: "línea", vehicles: "vehículo" };

/** @type {Record<string, string>} */
const WITH_ARTICLE = { de: "del", a: "al", para: "para el" };

/** De lo que se cuenta, uno solo: «1 minuto», pero «2 minutos» y «0 minutos».
 * @param {string} text
 */
const inSingular = (text) =>
    text.replace(
        /(?<![\d.,:$])1 ((?:minuto|hora|día|viaje|letra|milla|punto|parada|pasajero|registro|terminado|perdido|cancelado|reservado)(?=s)|lugar(?=es))e?s(?![a-záéíóúñ])/g,
        "1 $1"
    ).replace(/(?<![\d.,:$])1 (caracteres|versiones)(?![a-z])/g, (_, word) => (
        word === "versiones" ? "1 versión" : "1 carácter"
    ));

/** Palabras que dependen de lo que sigue: «del pasajero 7», pero «de Rosa Álvarez (7)»; «a la
 * 1:15», pero «a las 2:15» y «a las 13:15»; «1 minuto», pero «2 minutos». Detrás de «a. m.» no hay
 * otro punto.
 * @param {string} text
 */
export const smooth = (text) =>
    inSingular(
        text
            .replace(/(?<!\S)(de|a|para) (?=pasajero \d)/g, (_, word) => `${WITH_ARTICLE[word]} `)
            .replace(/(?<![a-záéíóúñ])(l)as (?=0?1:)/gi, "$1a ")
            .replace(/([ap]\. m\.)\./g, "$1")
    );

/** @type {Record<string, import("../../parts/words.js").Text>} */
export const words = {
    "common.am": "a. m.",
    "common.pm": "p. m.",
    "common.agency": "Paratránsito",
    "common.address-at": ({ street, place }) => `${street}, en ${place}`,
    "common.place": "lugar",
    "common.vehicle": ({ vehicle }) => `Vehículo ${vehicle}`,
    "common.line": ({ line }) => `Línea ${line}`,
    "common.rider": ({ rider }) => `pasajero ${rider}`,
    "common.close": "Cerrar",
    "common.close-note": "Cerrar esta nota",
    "common.print": "Imprimir",
    "common.yes": "Sí",
    "common.no": "No",
    "common.no-go-back": "No, volver",
    "common.silent": "El sistema no responde. Lo que escribió se conserva. Se pregunta otra vez hasta que responda.",
    "common.silent-write": "El sistema no responde. Lo que escribió se conserva. Se envía otra vez y se hace una sola vez.",
    "common.crowded": "Hay muchas solicitudes a la vez: esta espera su turno.",
    "common.answers-again": "El sistema responde otra vez.",
    "common.not-drawn": "Esta parte no se pudo mostrar. Cargue la página otra vez. Si sigue igual, avise a quienes manejan el sistema.",
    "common.wrong-file": ({ file }) =>
        `El archivo ${file} no es JSON de la forma que leen estas páginas. Lo que nombra aparece con números.`,
    "common.missing-file": ({ file }) =>
        `Falta el archivo ${file}. Los lugares, las líneas y los vehículos aparecen con sus números.`,
    "common.late-file": ({ file }) =>
        `El sitio todavía no ha enviado el archivo ${file}. Mientras no llegue, los lugares, las líneas y los vehículos aparecen con sus números, y las horas pueden ser las de este aparato.`,
    "common.wrong-list": ({ kind }) => `En el archivo de la agencia, ${kind} no es una lista.`,
    "common.wrong-record": ({ kind, key }) =>
        `En el archivo de la agencia, ${KINDS[kind]} «${key}» no tiene un número desde 1, o no es un registro.`,
    "common.wrong-field": ({ kind, id, name }) =>
        `En el archivo de la agencia, ${KINDS[kind]} ${id} tiene un ${name} que no se puede usar.`,
    "common.wrong-zone": ({ value }) =>
        `La zona «${value}» de agency.json no es una que conozcan los navegadores, como America/Chicago. Las horas son las de este aparato.`,
    "common.wrong-setting": ({ name, value }) => `En agency.json, ${name} no puede ser «${value}».`,
    "common.roster-head": "La lista de pasajeros necesita una primera fila con las columnas «rider» y «name».",
    "common.roster-number": ({ row, text }) =>
        `Fila ${row} de la lista: «${text}» no es un número de pasajero.`,
    "common.roster-twice": ({ row, text }) =>
        `Fila ${row} de la lista: el pasajero ${text} está dos veces. Vale la primera fila.`,
    "common.others-wrote": "Mientras tanto, otra ventana u otro aparato escribió con la misma clave. No se perdió nada: lo que envió siguió con un número más alto.",
    "common.was-denied": "Su última solicitud fue denegada: ",
    "common.was-done": "Su última solicitud se hizo, una sola vez.",
    "common.not-loaded": "Esta pantalla no se pudo cargar: se cortó la conexión. No se perdió nada de lo que envió.",
    "common.still-loading": "Esta pantalla todavía se está cargando. No se perdió nada de lo que envió.",
    "common.load-again": "Intentar otra vez",
    "common.counts-refused": ({
        count,
        what
    }) => `No se ${count === 1 ? "pudo guardar 1 registro" : `pudieron guardar ${count} registros`}: ${what
        .map((/** @type {{ kind: keyof typeof COUNTS, why: string }} */ { kind, why }) => `${COUNTS[kind]} (${why})`).join(", ")}. Avise a quienes manejan el sistema.`,
    "common.counts-loose": ({
        count
    }) => `Este navegador no tiene espacio para los registros y el sitio no responde. Deje abierta esta ventana: ${
        count === 1 ? "hay 1 registro que espera" : `hay ${count} registros que esperan`} en ella.`,
    "common.not-kept":
        "Este navegador no guarda nada de estas páginas: está lleno o tiene bloqueados los datos de sitios. Lo que la oficina confirmó sigue en pie. Lo que escriba se pierde al " +
        "cerrar o recargar esta página, y entonces tendrá que entrar de nuevo.",
    "common.unproved": "Este es un programa de prueba. Todavía no se ha verificado. No lo use para viajes reales.",
    "common.keys": "Teclas y ayuda",
    "common.menu": "Su menú",
    "common.go-to": ({ job }) => `Ir a ${job}`,
    "common.find": "Buscar un pasajero",
    "common.show": "Mostrar",
    "common.skip": "Saltar a la parte principal",
    "common.screen": "Pantalla",
    "common.parts": "Partes de esta pantalla",
    "common.language": "Idioma",
    "common.as-of": ({ time }) => `Según lo leído a las ${time}.`,
    "common.as-of-silent": ({ time }) =>
        `Según lo leído a las ${time}. Todavía no hay respuesta a una consulta más reciente.`,
};
