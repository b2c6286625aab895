// Palabras del caso de un pasajero: derecho, cartas, solicitudes, apelaciones, suspensiones.

/** @type {Record<string, import("../../parts/words.js").Text>} */
export const words = {
    "cases.rider": "Buscar un pasajero",
    "cases.show": "Mostrar el caso",
    "cases.case-of": ({ who }) => `El caso de ${who}`,
    "cases.reading": "Cargando el caso…",
    "cases.standing": ({ who }) => `Elegibilidad de ${who}`,
    "cases.standing-own": "¿Puedo viajar?",
    "cases.standing-day": "Elegibilidad en un día",
    "cases.day": "Día",
    "cases.show-standing": "Mostrar la elegibilidad",
    "cases.may": ({ who, day }) => `${who.replace(/^p/, "P")} puede viajar el ${day}.`,
    "cases.may-not": ({ who, day }) => `${who.replace(/^p/, "P")} no puede viajar el ${day}.`,
    "cases.you-may": ({ day }) => `Usted puede viajar el ${day}.`,
    "cases.you-may-not": ({ day }) => `Usted no puede viajar el ${day}.`,
    "cases.suspended": "Hay una suspensión ese día.",
    "cases.reason": ({ why }) => `Razón: ${why}.`,
    "cases.else": ({ why }) => `Sin la suspensión: ${why}.`,
    "cases.why-presumed": "elegibilidad presunta desde el día 21, porque la solicitud no se ha decidido",
    "cases.why-appeal-overdue": "la audiencia de la apelación fue hace 30 días o más, y no se ha decidido",
    "cases.why-granted": "elegibilidad aprobada",
    "cases.why-none": "no hay elegibilidad aprobada para ese día",
    "cases.why-visitor": "visitante, dentro de los 21 días de un año",
    "cases.why-visitor-used": "visitante que ya usó los 21 días de este año",
    "cases.until": ({ day }) => `hasta el ${day}`,
    "cases.for": ({ conditions }) => `Para ${conditions}.`,
    "cases.waiting": ({ who }) => `Lo que está pendiente de ${who}`,
    "cases.waiting-nothing": "Aquí no se sabe de ninguna solicitud ni apelación pendiente. Una que llegó desde anoche puede estar en otra computadora.",
    "cases.letters": ({ who }) => `Cartas a ${who}`,
    "cases.letters-own": "Sus cartas",
    "cases.letters-reading": "Cargando las cartas…",
    "cases.letters-none": "Todavía no hay cartas.",
    "cases.print-language": "Imprimir en",
    "cases.both": "inglés y español",
    "cases.print-letter": ({ entry, rider }) => `Imprimir la carta ${entry} del pasajero ${rider}`,
    "cases.large-letter": ({ entry, rider }) =>
        `Letra grande de la carta ${entry} del pasajero ${rider}`,
    "cases.text-letter": ({ entry, rider }) =>
        `Texto para correo electrónico de la carta ${entry} del pasajero ${rider}`,
    "cases.print-made": "Imprimir esto como carta",
    "cases.large-made": "Lo mismo en letra grande",
    "cases.text-made": "Lo mismo como texto para correo electrónico",
    "cases.other-forms": "Si alguien pide audio o braille, guarde el texto para correo electrónico. El programa bin/letters hace los dos a partir de él, en la máquina de quien mantiene el sistema.",
    "cases.part-of-letter": ({ entry }) =>
        `Esta decisión y la carta ${entry} son una sola carta. Se imprime allí.`,
    "cases.part-waits": "La aprobación que acompaña esta denegación todavía no está anotada. Si imprime ahora, sale solo la denegación. Cuando la aprobación esté anotada, las dos decisiones son una sola carta.",
    "cases.appeal-by": ({ day }) => `Esta decisión se puede apelar hasta el ${day}.`,
    "cases.appeal-own": ({ entry }) => `Apelar esta decisión (carta ${entry})`,
    "cases.appeal-for": ({ entry, rider }) =>
        `Anotar la apelación del pasajero ${rider} contra la carta ${entry}`,
    "cases.appeal-question-own": ({ title, day }) => `¿Apelar la decisión del ${day}: “${title}”?`,
    "cases.appeal-question": ({ who, title, day }) =>
        `¿Anotar la apelación de ${who} contra la decisión del ${day}: “${title}”?`,
    "cases.appeal-detail": "Una apelación no se puede retirar. Cada decisión se puede apelar una vez.",
    "cases.appeal-yes-own": "Sí, apelar",
    "cases.appeal-yes": ({ rider }) => `Sí, anotar la apelación del pasajero ${rider}`,
    "cases.appealed-own": "Tenemos su apelación. Nos comunicaremos con usted para fijar una audiencia y después le enviaremos la decisión.",
    "cases.appealed": ({ who }) =>
        `La apelación de ${who} quedó registrada. Falta la audiencia con un oficial.`,
    "cases.conditions": "Aprobada para (al menos una debe cumplirse en el viaje)",
    "cases.tick-always": "Todos los viajes",
    "cases.tick-nolift": "Viajes que ningún autobús con rampa o elevador hace de principio a fin",
    "cases.tick-months": "Viajes en estos meses",
    "cases.tick-farther": "Viajes con un extremo a más de estos pies de toda línea de autobús en servicio",
    "cases.conditions-wants": "Marque o escriba al menos una condición.",
    "cases.last-day": "Último día de la elegibilidad",
    "cases.last-day-wants": "Elija un último día que sea hoy o después.",
    "cases.reasons": "Razones, como están en la carta",
    "cases.on-record": ({ entry }) => `La carta ${entry} como consta`,
    "cases.few-reasons": "Estas razones son muy breves. La carta debe decir en concreto por qué. (49 CFR 37.125(d))",
    "cases.seen-in-time": ({ arrived, wait }) =>
        `La van estaba allí a las ${arrived} y esperó ${wait} minutos.`,
    "cases.seen-late": ({ arrived, late }) =>
        `La van llegó a las ${arrived}, ${late} minutos después del horario. Ese viaje es falta de la agencia, y no sirve de base para un aviso.`,
    "cases.seen-short": ({ arrived, wait, minutes }) =>
        `La van estaba allí a las ${arrived} y esperó ${wait} minutos de ${minutes}.`,
    "cases.seen-no-arrival": "El conductor no anotó ninguna llegada.",
    "cases.seen-none": "El conductor no informó nada de este viaje.",
    "cases.seen-old": "Es tan antiguo que el sitio ya no tiene lo que informó el conductor.",
    "cases.seen-unknown": "Este sitio no tiene lo que informaron los conductores de quienes no se presentaron. Antes de dar aviso, pregúnteles si la van estuvo allí a tiempo.",
    "cases.seen-doubt": ({ trips }) =>
        `Nada muestra que la van estuvo allí dentro del horario y esperó: viaje ${trips}. Lo que falló la agencia no puede contar contra el pasajero. (49 CFR 37.125(h)(1))`,
    "cases.basis-trip": ({ trip, day, window, place }) =>
        `Viaje ${trip}: ${day}, ${window}, desde ${place}`,
    "cases.basis-hint": "La carta lista cada uno que está marcado. Uno con advertencia empieza sin marca: cuenta solo si la van llegó dentro del horario y esperó.",
    "cases.basis-wants": "Marque al menos un viaje.",
    "cases.basis-count": ({ length, most }) =>
        `El texto del aviso tiene ${length} de ${most} caracteres.`,
    "cases.basis-left": ({ trips, count }) => (
        count === 1
            ? `No cabe el viaje ${trips}: el texto no lo menciona. Solo cuentan los viajes que el aviso nombra.`
            : `No caben los viajes ${trips}: el texto no los menciona. Solo cuentan los viajes que el aviso nombra.`
    ),
    "cases.basis-long": ({ length, most }) =>
        `El aviso admite ${most} caracteres, y este tiene ${length}. Quite un viaje o escriba menos.`,
    "cases.basis-more": "Algo más para la carta (opcional)",
    "cases.starts-proposed": "Primer día propuesto de la suspensión",
    "cases.starts-proposed-wants": ({ day }) =>
        `Elija el ${day} o después, para que el pasajero pueda pedir antes una audiencia.`,
    "cases.ends-proposed": "Último día propuesto",
    "cases.missed-reading": "Cargando los viajes del pasajero…",
    "cases.missed-no-trips": "No consta ningún viaje al que este pasajero no se haya presentado, así que no hay motivo para un aviso.",
    "cases.starts-hint": ({ days }) =>
        `Lo mejor es dejar al menos ${days} días desde hoy, para que el pasajero pueda apelar antes.`,
    "cases.proposed": ({ first, last }) => `El aviso propuso del ${first} al ${last}.`,
    "cases.basis": "Viajes sin presentarse en que se basa el aviso",
    "cases.starts": "Primer día de la suspensión",
    "cases.ends": "Último día",
    "cases.ends-wants": ({ first, last }) =>
        `Elija un último día del ${first} al ${last}: 30 días como máximo.`,
    "cases.asked-until": ({ day, conditions }) => `Hasta el ${day}, para ${conditions}.`,
    "cases.asked-days": ({ first, last }) => `Del ${first} al ${last}.`,
    "cases.asked-reasons": "La carta dice:",
    "cases.asked-final": "Queda en el expediente de este pasajero y no se puede retirar.",
    "cases.yes": ({ action }) =>
        `Sí: ${action.replace(/^./, (/** @type {string} */ first) => first.toLowerCase())}`,
    "cases.heading-complete": ({ who }) => `Recibir la solicitud de ${who}`,
    "cases.about-complete": "Están todos los papeles. Si nadie decide en 21 días, el pasajero puede viajar. (49 CFR 37.125(c))",
    "cases.do-complete": ({ rider }) => `La solicitud del pasajero ${rider} está completa`,
    "cases.ask-complete": ({ who }) => `¿Está completa la solicitud de ${who}?`,
    "cases.done-complete": ({ who }) =>
        `La solicitud de ${who} quedó registrada. Espera al examinador.`,
    "cases.heading-grant": ({ who }) => `Aprobar la solicitud de ${who}`,
    "cases.about-grant": "El pasajero puede hacer todos los viajes hasta el último día. (49 CFR 37.125(e)) Para dejar viajes fuera, apruebe con condiciones.",
    "cases.do-grant": ({ rider }) => `Aprobar la solicitud del pasajero ${rider}`,
    "cases.ask-grant": ({ who }) => `¿Aprobar la solicitud de ${who}?`,
    "cases.done-grant": ({ who }) =>
        `La solicitud de ${who} está aprobada. La carta está lista para imprimir.`,
    "cases.heading-in-part": ({ who }) => `Aprobar en parte la solicitud de ${who}`,
    "cases.about-in-part": "Para una aprobación con condiciones. Primero se niega el resto con razones, para que el pasajero pueda apelar. (49 CFR 37.125(d), (g)) Luego un empleado anota hoy una solicitud nueva, y usted la aprueba con sus condiciones. Las dos decisiones salen como una sola carta.",
    "cases.part-reasons": "Por qué no se aprueba más, como está en la carta",
    "cases.part-long": ({ length, most }) =>
        `Con las condiciones caben ${most} caracteres en la carta, y aquí hay ${length}. Escriba menos razones.`,
    "cases.asked-part": ({ day, conditions }) =>
        `Se va a aprobar hasta el ${day}: ${conditions}. Todos los demás viajes se niegan.`,
    "cases.do-in-part": ({ rider }) => `Aprobar en parte la solicitud del pasajero ${rider}`,
    "cases.ask-in-part": ({ who }) => `¿Aprobar en parte la solicitud de ${who}?`,
    "cases.done-in-part": ({ who }) =>
        `Lo que no se aprueba a ${who} está negado. Ahora un empleado tiene que anotar hoy una solicitud nueva. Está en su página “Asuntos pendientes”.`,
    "cases.heading-rest": ({ who }) => `Aprobar a ${who} lo que falta de la aprobación en parte`,
    "cases.about-rest": "Las condiciones son las que nombra la denegación. (49 CFR 37.123(b), 37.125(e))",
    "cases.do-rest": ({ rider }) =>
        `Aprobar la solicitud nueva del pasajero ${rider} con sus condiciones`,
    "cases.ask-rest": ({ who }) => `¿Aprobar la solicitud nueva de ${who} con sus condiciones?`,
    "cases.done-rest": ({ who }) =>
        `La aprobación en parte de ${who} está completa. La carta está lista para imprimir.`,
    "cases.rest-waits": ({ day }) =>
        `Lo que no se aprueba se negó el ${day}. La aprobación espera la solicitud nueva que anota un empleado, y después a usted.`,
    "cases.take-again": ({ rider, day }) =>
        `La solicitud del pasajero ${rider} se aprobó en parte el ${day}. Anótela hoy otra vez como completa, para que el examinador la apruebe con sus condiciones.`,
    "cases.parts": "Aprobaciones en parte por terminar",
    "cases.parts-hint": "Lo que no se aprueba se negó. Hasta que siga la aprobación, el pasajero no tiene elegibilidad nueva ni carta.",
    "cases.parts-refused": ({ rider }) => `Anote hoy la solicitud nueva del pasajero ${rider}`,
    "cases.parts-applied": ({ rider }) =>
        `Apruebe la solicitud nueva del pasajero ${rider} con sus condiciones`,
    "cases.parts-since": ({ day }) => `negada en parte el ${day}`,
    "cases.heading-refuse": ({ who }) => `Negar la solicitud de ${who}`,
    "cases.about-refuse": "La carta da las razones, y el pasajero puede apelar. (49 CFR 37.125(d))",
    "cases.do-refuse": ({ rider }) => `Negar la solicitud del pasajero ${rider}`,
    "cases.ask-refuse": ({ who }) => `¿Negar la solicitud de ${who}?`,
    "cases.done-refuse": ({ who }) =>
        `La solicitud de ${who} está negada. La carta está lista para imprimir.`,
    "cases.heading-heard": ({ who }) => `Anotar la audiencia de la apelación de ${who}`,
    "cases.about-heard": "Se escuchó al pasajero. Hay que decidir en 30 días. (49 CFR 37.125(g))",
    "cases.do-heard": ({ rider }) => `La apelación del pasajero ${rider} tuvo su audiencia`,
    "cases.ask-heard": ({ who }) => `¿Hubo audiencia de la apelación de ${who}?`,
    "cases.done-heard": ({ who }) =>
        `La audiencia de la apelación de ${who} quedó registrada. Hay que decidir en 30 días.`,
    "cases.heading-appeal-granted": ({ who }) =>
        `Conceder la apelación de ${who} contra una denegación`,
    "cases.about-appeal-granted": "Decide una persona que no participó en la denegación. (49 CFR 37.125(g))",
    "cases.do-appeal-granted": ({ rider }) => `Conceder la apelación del pasajero ${rider}`,
    "cases.ask-appeal-granted": ({ who }) => `¿Conceder la apelación de ${who}?`,
    "cases.done-appeal-granted": ({ who }) =>
        `La apelación de ${who} está concedida. La carta está lista para imprimir.`,
    "cases.heading-appeal-denied": ({ who }) => `Negar la apelación de ${who}`,
    "cases.about-appeal-denied": "Decide una persona que no participó en la decisión. (49 CFR 37.125(g))",
    "cases.do-appeal-denied": ({ rider }) => `Negar la apelación del pasajero ${rider}`,
    "cases.ask-appeal-denied": ({ who }) => `¿Negar la apelación de ${who}?`,
    "cases.done-appeal-denied": ({ who }) =>
        `La apelación de ${who} está negada. La carta está lista para imprimir.`,
    "cases.heading-overturn": ({ who }) => `Anular la suspensión de ${who}`,
    "cases.about-overturn": "La suspensión queda sin efecto. Decide una persona que no participó en la suspensión. (49 CFR 37.125(g))",
    "cases.do-overturn": ({ rider }) => `Anular la suspensión del pasajero ${rider}`,
    "cases.ask-overturn": ({ who }) => `¿Anular la suspensión de ${who}?`,
    "cases.done-overturn": ({ who }) =>
        `La suspensión de ${who} está anulada. La carta está lista para imprimir.`,
    "cases.heading-notice": ({ who }) => `Dar a ${who} aviso de una propuesta de suspensión`,
    "cases.about-notice": "Hace falta un patrón de viajes sin presentarse. Se escucha al pasajero antes de decidir. (49 CFR 37.125(h))",
    "cases.do-notice": ({ rider }) => `Dar aviso al pasajero ${rider}`,
    "cases.ask-notice": ({ who }) => `¿Dar a ${who} el aviso de propuesta de suspensión?`,
    "cases.done-notice": ({ who }) => `El aviso a ${who} quedó registrado, con su carta.`,
    "cases.notice-none": "No hay ningún aviso registrado. Lo da un empleado, en su página “Elegibilidad”. Después se escucha al pasajero, y entonces usted decide.",
    "cases.heading-notice-heard": ({ who }) => `Anotar la audiencia de ${who} sobre el aviso`,
    "cases.about-notice-heard": "Un empleado dio el aviso. Se escuchó al pasajero antes de decidir. (49 CFR 37.125(h))",
    "cases.do-notice-heard": ({ rider }) => `Se escuchó al pasajero ${rider} sobre el aviso`,
    "cases.ask-notice-heard": ({ who }) => `¿Se escuchó a ${who} sobre el aviso?`,
    "cases.done-notice-heard": ({ who }) =>
        `La audiencia de ${who} sobre el aviso quedó registrada.`,
    "cases.heading-suspend": ({ who }) => `Suspender a ${who}`,
    "cases.about-suspend": "Requiere un aviso, que da un empleado, y su audiencia. Empieza mañana como mínimo y dura 30 días como máximo. (49 CFR 37.125(h))",
    "cases.do-suspend": ({ rider }) => `Suspender al pasajero ${rider}`,
    "cases.ask-suspend": ({ who }) => `¿Suspender a ${who}?`,
    "cases.done-suspend": ({ who }) =>
        `${who.replace(/^p/, "P")} está en suspensión. La carta está lista para imprimir.`,
    "cases.waits": "Asuntos pendientes",
    "cases.waits-reading": "Cargando la lista de pendientes…",
    "cases.waits-none": "Este sitio no tiene lista de pendientes. Se puede hacer cada noche de una copia del archivo: pregunte a quien mantiene el sistema.",
    "cases.waits-caller": "Esta clave no puede leer la lista de pendientes. Es para el recepcionista, el examinador, el oficial y el despachador.",
    "cases.waits-silent": "El sitio no responde.",
    "cases.waits-again": "Leerla otra vez",
    "cases.waits-open": ({ rider }) => `Mostrar al pasajero ${rider}`,
    "cases.waits-offers": "Ofertas que esperan respuesta",
    "cases.waits-offers-hint": "La oficina aparta estos viajes a más de una hora de lo que pidió el pasajero. Llame al pasajero: abra sus viajes y responda allí.",
    "cases.waits-denials": "Denegados hoy por falta de vehículo",
    "cases.waits-denials-hint": "Una copia del archivo del sistema puede mostrar a quien defiende al pasajero por qué ningún vehículo podía hacer un viaje. Guarda el estado del momento en que usted la pide: pídala pronto.",
    "cases.waits-denied-at": "Hora de la denegación",
    "cases.waits-denied-where": "Se pidió por",
    "cases.waits-copy": "Copia",
    "cases.channel-page": "este sitio",
    "cases.channel-telephone": "teléfono",
    "cases.channel-app": "aplicación",
    "cases.channel-standing-order": "orden permanente",
    "cases.waits-rider": "Pasajero",
    "cases.waits-name": "Nombre",
    "cases.waits-asked": "Se pidió",
    "cases.waits-offered": "Se ofrece",
    "cases.waits-others": "Listas para otros",
    "cases.waits-print": "Imprimir estas listas",
    "cases.missed-of": ({ rider }) => `Viajes a los que no se presentó el pasajero ${rider}`,
    "cases.missed-hint": "El sistema muestra los viajes solo al recepcionista y al despachador. El oficial los lee en la lista de pendientes, que es de la fecha de su copia.",
    "cases.missed-none": "La lista de pendientes no tiene de este pasajero ningún patrón de viajes sin presentarse ni caso por decidir.",
    "cases.forms": "Formularios: una queja, una solicitud de modificación",
    "cases.forms-about": "Cada formulario sale con el nombre y la dirección de la agencia. Nadie está obligado a usarlo: una queja o una solicitud hecha de otro modo vale igual.",
    "cases.print-complaint": "Imprimir un formulario de queja",
    "cases.print-modification": "Imprimir una solicitud de modificación razonable",
    "cases.complaint-title": "Queja sobre el servicio de paratránsito",
    "cases.complaint-about": ({ telephone }) =>
        `Use este formulario si algo estuvo mal en su servicio, o si cree que a alguien se le trató peor por una discapacidad. También puede llamar al ${telephone}, y cualquier persona puede ayudarle a llenarlo.`,
    "cases.complaint-fields": "Su nombre|Número de pasajero, si lo tiene|Teléfono, dirección o correo electrónico|Cómo le contestamos: por teléfono, carta, letra grande, braille, audio o correo electrónico|Día y hora de lo ocurrido|Viaje, van o lugar|Qué pasó, y quién lo vio…|Qué pide que hagamos…|Día y firma",
    "cases.complaint-end": ({ agency }) =>
        `Entréguelo o envíelo a ${agency}. Lo investigamos y le contestamos con nuestras razones. También puede quejarse ante la Administración Federal de Tránsito (FTA), Oficina de Derechos Civiles.`,
    "cases.modification-title": "Solicitud de modificación razonable",
    "cases.modification-about": ({ telephone }) =>
        `Use este formulario si necesita que hagamos algo de otra manera por una discapacidad, para poder usar el servicio. Pídalo antes del viaje si puede. Si no puede saberlo antes, llame al ${telephone} o pídaselo al conductor.`,
    "cases.modification-fields": "Su nombre|Número de pasajero, si lo tiene|Teléfono, dirección o correo electrónico|Cómo le contestamos: por teléfono, carta, letra grande, braille, audio o correo electrónico|Qué necesita que hagamos de otra manera…|Por qué lo necesita para usar el servicio…|Para qué viajes o días|Día y firma|Para la oficina: recibida el, decisión y sus razones, y cuándo se le avisó al pasajero…",
    "cases.modification-end": ({ agency }) =>
        `Entréguela o envíela a ${agency}. Decidimos lo antes posible, antes de su viaje si hay tiempo. Si decimos que no, damos nuestras razones y hacemos lo demás que podamos para que pueda viajar. (49 CFR 37.169)`,
    "cases.appeal-filed-own": ({ day }) =>
        `Tenemos su apelación del ${day}. No necesita apelar otra vez.`,
    "cases.appeal-filed": ({ day }) =>
        `La apelación contra esta decisión se registró el ${day} y está pendiente.`,
    "cases.appeal-overdue-own": "Tenemos su apelación. Ya hubo audiencia y pasaron nuestros 30 días para decidir. Usted puede viajar hasta que decidamos.",
    "cases.appeal-overdue": "Ya hubo audiencia de la apelación y pasaron los 30 días para decidir. La persona puede viajar hasta que haya una decisión.",
    "cases.appeal-rides-own": "Tenemos su apelación. Usted puede viajar hasta que decidamos.",
    "cases.appeal-rides": "Hay una apelación pendiente contra esta suspensión. La persona puede viajar hasta que haya una decisión.",
    "cases.appeal-denied-own": "Ya tenemos su apelación. No necesita apelar otra vez.",
    "cases.appeal-denied": "La apelación contra esta decisión ya está registrada.",
    "cases.appeal-next-own": "Primero hay una audiencia y después decidimos dentro de 30 días. Pasados esos 30 días, usted puede viajar hasta que decidamos.",
    "cases.appeal-next": "La decisión debe llegar dentro de los 30 días siguientes a la audiencia. Después, la persona puede viajar hasta que haya una decisión.",
    "cases.appeal-once-own": "Si ya apeló, no necesita apelar otra vez.",
    "cases.appeal-once": "Si el pasajero ya apeló, no hace falta registrarlo otra vez.",
    "cases.appeal-waits": ({ day }) =>
        `Hay una apelación pendiente desde el ${day}. Todavía no hubo audiencia.`,
    "cases.appeal-heard": ({ day, heard }) =>
        `Hay una apelación pendiente desde el ${day}. La audiencia fue el ${heard}.`,
    "cases.appeals-none": "Ninguna decisión sobre este pasajero se puede apelar: cada denegación y suspensión ya tuvo su apelación, o no hay ninguna.",
    "cases.appeals-unknown": ({ date }) =>
        `Esta página no sabe de ninguna apelación. Una que llegó desde anoche puede estar en otra computadora. Anote una audiencia o una decisión solo si tiene la apelación contra la decisión del ${date}.`,
    "cases.suspended-days": ({ first, last }) => `Suspensión del ${first} al ${last}.`,
    "cases.suspended-appeal": ({ day }) =>
        `La persona puede apelar hasta el ${day}. Mientras la apelación esté pendiente, puede viajar.`,
    "cases.suspended-appeal-own": ({ day, page }) =>
        `Puede apelar hasta el ${day}, en la página “${page}”. Mientras su apelación esté pendiente, puede viajar.`,
    "cases.appeal-heard-here": ({ day }) =>
        `La audiencia de la apelación fue el ${day}, según se anotó aquí. La decisión debe llegar dentro de los 30 días siguientes a la audiencia.`,
    "cases.queue-of-examiner": ({ count }) => (
        count === 0
            ? "Ninguna solicitud por decidir"
            : count === 1
            ? "1 solicitud por decidir"
            : `${count} solicitudes por decidir`
    ),
    "cases.queue-of-officer": ({ count }) => (
        count === 0
            ? "Ninguna apelación por decidir"
            : count === 1
            ? "1 apelación por decidir"
            : `${count} apelaciones por decidir`
    ),
    "cases.queue-of-suspensions": ({ count }) => (
        count === 0
            ? "Ningún patrón de viajes sin presentarse"
            : count === 1
            ? "1 pasajero con un patrón de viajes sin presentarse"
            : `${count} pasajeros con un patrón de viajes sin presentarse`
    ),
    "cases.queue-hint": "De la lista de anoche, con lo que usted anote aquí hoy.",
    "cases.queue-decided": ({ count }) => (
        count === 1
            ? "1 caso se decidió aquí desde que se hizo esta lista."
            : `${count} casos se decidieron aquí desde que se hizo esta lista.`
    ),
    "cases.queue-back": "Todos los casos",
    "cases.queue-if": "Viaja desde, si no hay decisión",
    "cases.queue-application": "Solicitud",
    "cases.queue-appeal": "Apelación, con audiencia",
    "cases.queue-hearing": "Apelación, sin audiencia",
    "cases.queue-missed": "Patrón de viajes sin presentarse",
    "cases.days-left": ({ count }) => (count === 1 ? "Queda 1 día" : `Quedan ${count} días`),
    "cases.days-today": "El último día es hoy",
    "cases.days-past": ({ count }) => (
        count === 1 ? "Venció hace 1 día" : `Venció hace ${count} días`
    ),
    "cases.cases": "Casos",
    "cases.rider-of": ({ rider }) => `Pasajero ${rider}`,
    "cases.file": "Expediente",
    "cases.file-none": "Aquí todavía no se sabe nada de este expediente.",
    "cases.file-hint": "Las cartas se leen ahora del sistema. Las demás anotaciones vienen de la lista de anoche y de este navegador.",
    "cases.decide-for": ({ who }) => `Decidir sobre ${who}`,
    "cases.decision": "Decisión",
    "cases.decide-hint": "Elija una decisión. Se muestra su carta antes de anotar nada.",
    "cases.choice-grant": "Aprobar",
    "cases.choice-in-part": "Aprobar con condiciones",
    "cases.choice-refuse": "Negar",
    "cases.choice-rest": "Terminar la aprobación en parte",
    "cases.choice-heard": "Anotar la audiencia",
    "cases.choice-appeal-granted": "Conceder la apelación",
    "cases.choice-appeal-denied": "Negar la apelación",
    "cases.choice-overturn": "Anular la suspensión",
    "cases.choice-notice-heard": "Audiencia sobre el aviso",
    "cases.choice-suspend": "Suspender",
    "cases.letter": "Carta",
    "cases.letter-of": ({ entry }) => `Carta ${entry}`,
    "cases.letter-draft": "Así se imprimirá la carta. Todavía no se anotó nada.",
    "cases.letter-none-of": "Una audiencia no genera carta.",
    "cases.letter-choose": "Todavía no hay carta. Elija una decisión para ver aquí su carta.",
    "cases.letter-attendant": "La carta también dice si puede ir un asistente, según el registro del pasajero.",
    "cases.preview": "La carta como se imprimirá",
    "cases.preview-of": ({ entry }) => `La carta ${entry} como se imprime`,
    "cases.print-short": "Imprimir",
    "cases.large-short": "Letra grande",
    "cases.text-short": "Texto para correo",
    "cases.reasons-hint-suspend": "Diga qué viajes cuentan, por qué forman un patrón y qué dijo el pasajero en la audiencia. El pasajero puede apelar por estos motivos.",
    "cases.reasons-hint": "Diga qué se observó y cuándo, cómo influye en el uso del autobús y qué no contó. El pasajero puede apelar por eso.",
    "cases.line-today": ({ day }) => `Hoy, ${day}`,
    "cases.line-decision": "Decisión",
    "cases.line-entering": "La está escribiendo",
    "cases.line-by": ({ caller }) => `Anotado por el usuario ${caller}`,
    "cases.line-until": ({ day }) => `Hasta el ${day}`,
    "cases.line-days": ({ first, last }) => `Del ${first} al ${last}`,
    "cases.line-letter": ({ entry }) => `Leer la carta ${entry}`,
    "cases.line-complete": "Solicitud completa",
    "cases.line-grant": "Aprobada",
    "cases.line-refuse": "Negada",
    "cases.line-appeal": "Apelación",
    "cases.line-heard": "Audiencia de la apelación",
    "cases.line-appeal-granted": "Apelación concedida",
    "cases.line-appeal-denied": "Apelación negada",
    "cases.line-overturn": "Suspensión anulada",
    "cases.line-notice": "Aviso de propuesta de suspensión",
    "cases.line-notice-heard": "Audiencia sobre el aviso",
    "cases.line-suspend": "Suspensión decidida",
    "cases.line-presumed": "Día 21",
    "cases.line-presumed-why": "Viaja desde aquí si no hay decisión. 49 CFR 37.125(c)",
    "cases.line-overdue": "Día 30 después de la audiencia",
    "cases.line-overdue-why": "Viaja desde aquí si no hay decisión. 49 CFR 37.125(g)",
    "cases.line-appeal-until": "Último día para apelar",
    "cases.line-appeal-until-why": "60 días después de la decisión. 49 CFR 37.125(g)",
    "cases.line-hearing-until": "Último día para pedir una audiencia",
    "cases.line-hearing-until-why": "15 días después del aviso",
    "cases.line-grant-ends": "Termina la elegibilidad",
    "cases.line-grant-ended": "Terminó la elegibilidad",
    "cases.line-suspension-begins": "Empieza la suspensión",
    "cases.line-suspension-ends": "Último día de la suspensión",
    "cases.if-due": ({ day }) =>
        `Si nadie decide, el pasajero puede viajar desde el ${day} hasta que haya una decisión.`,
    "cases.if-past": ({ day }) =>
        `El pasajero puede viajar desde el ${day}, hasta que haya una decisión.`,
    "cases.if-hearing": "La apelación espera su audiencia.",
    "cases.not-heard": "Sin audiencia",
    "cases.days-none": "",
    "cases.queue-part": "Una aprobación en parte espera su segundo paso.",
    "cases.queue-nothing": "Aquí no hay nada pendiente, según lo que sabe esta página.",
    "cases.queue-clock-21": "Plazo de 21 días",
    "cases.queue-clock-30": "30 días desde la audiencia",
    "cases.queue-case": "Caso",
    "cases.queue-against": "Apelación de",
    "cases.queue-against-refuse": ({ day }) => (day ? `Denegación, ${day}` : "Denegación"),
    "cases.queue-against-suspend": ({ day }) => (day ? `Suspensión, ${day}` : "Suspensión"),
    "cases.queue-last": "Última anotación",
    "cases.queue-next": "Siguiente paso",
    "cases.queue-complete": ({ day }) => `Completa ${day}`,
    "cases.queue-appealed": ({ day }) => `Apeló ${day}.`,
    "cases.queue-heard": ({ day }) => `Audiencia ${day}.`,
    "cases.queue-rides-since": ({ day }) => `Viaja desde ${day}`,
    "cases.queue-rides-today": "Viaja desde hoy",
    "cases.queue-rides-now": "Viaja ahora",
    "cases.queue-no-shows": "Viajes sin presentarse",
    "cases.queue-figures": ({ missed, ended, percent }) =>
        `${missed} de ${ended} ${ended === 1 ? "viaje" : "viajes"} (${percent} %)`,
    "cases.queue-step": "Paso",
    "cases.step-none": "Sin aviso: lo da un empleado",
    "cases.step-notice": ({ day }) => `Aviso del ${day}, sin audiencia`,
    "cases.step-heard": ({ day }) => `Audiencia ${day}`,
    "cases.step-suspended": ({ day }) => `Suspensión desde ${day}`,
    "cases.next-decide": "Decidir",
    "cases.next-hear": "Anotar audiencia",
    "cases.next-review": "Revisar viajes",
    "cases.next-of": ({ next, name, rider }) =>
        `${next}: ${name ? `${name} (${rider})` : `pasajero ${rider}`}`,
    "cases.queue-all": "Todos",
    "cases.queue-week": "Esta semana",
    "cases.queue-print": "Imprimir lista",
    "cases.queue-rule-examiner": "49 CFR 37.125(c): después de 21 días sin decisión, el pasajero puede viajar",
    "cases.queue-rule-officer": "49 CFR 37.125(g): decide alguien que no participó en la primera decisión",
    "cases.queue-rule-suspensions": "49 CFR 37.125(h): un patrón, un aviso, una audiencia, 30 días como máximo",
    "cases.ending": "Elegibilidad que termina pronto",
    "cases.ending-none": "Sin solicitud nueva. Llame o mande el formulario.",
    "cases.ending-applied": ({ day }) => `Solicitud nueva completa ${day}`,
    "cases.file-table": "Ver el expediente como tabla",
};
