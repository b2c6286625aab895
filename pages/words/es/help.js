// Palabras de la ayuda: las teclas de una pantalla y lo que se dice en la primera visita.

/** @type {Record<string, import("../../parts/words.js").Text>} */
export const words = {
    "help.title": "Teclas de esta pantalla",
    "help.single": "Usar teclas sueltas (/, ? y letras)",
    "help.tab": "Ir al campo o botón siguiente",
    "help.enter": "Tomar el primer resultado o enviar el formulario",
    "help.escape": "Cerrar una lista o una pregunta, o salir de la búsqueda",
    "help.keys": "Mostrar esta lista",
    "help.search": "Buscar un pasajero por nombre, número o teléfono",
    "help.search-day": "Buscar un pasajero, un viaje o una van",
    "help.choices": "Recorrer los resultados",
    "help.book": "Empezar una reservación para este pasajero",
    "help.trips": "Ir al primer viaje próximo",
    "help.days": "Recorrer los días; la barra espaciadora elige uno",
    "help.vans": "Ir de una van a otra",
    "help.stops": "Ir de una parada a otra",
    "help.first-rider": "Aquí ve sus próximos viajes. Reserve, cambie o cancele un viaje con los botones. Si necesita ayuda, llame a la agencia.",
    "help.first-clerk": "Escriba un nombre, un número de pasajero o un teléfono, y presione Enter. Aparecen los viajes del pasajero y la reservación. Presione ? para ver las teclas de esta pantalla.",
    "help.first-examiner": "Las solicitudes con menos días restantes están primero. Abra una para leer su expediente y decidir. Presione ? para ver las teclas de esta pantalla.",
    "help.first-officer": "Las apelaciones con menos días restantes están primero. Abra una para leer su expediente y decidir. Presione ? para ver las teclas de esta pantalla.",
    "help.first-dispatcher": "Día muestra una fila por cada van, con las que van tarde arriba. Elija allí una van para ver sus paradas y a quién llamar. Presione ? para ver las teclas de esta pantalla.",
    "help.first-driver": "Su próxima parada está arriba. Toque un botón en cada parada. Sin conexión, el teléfono guarda sus toques y los envía después.",
    "help.first-admin": "Dé una clave a cada persona en Claves. Ponga sus lugares y líneas en el mapa. Fije las tarifas y los límites antes de que se reserve el primer viaje.",
};
