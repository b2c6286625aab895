"""The sentences of a refusal, in English and in Spanish."""

from collections.abc import Mapping
from dataclasses import dataclass

from desk_tools.why.reasons import HOURS, Reason, Refusal

LANGUAGES = ("en", "es")


@dataclass(frozen=True)
class Facts:
    """What a copy and the agency's file tell of vehicles: their names, and when each has to be back, in minutes."""

    names: Mapping[int, str]
    closes: Mapping[int, int]


NO_FACTS = Facts({}, {})

TEXTS: dict[str, dict[str, str]] = {
    "en": {
        "title": "Why there was no vehicle for this trip",
        "no-way": "The driving times have no way at all between the two places.",
        "none": "The log has no vehicle. Either none was on duty on that day, or the log leaves some out: `desk audit` decides.",
        "vehicle": "Van {number}",
        "named": "{name} (van {number})",
        "alone": "{who} cannot take the trip: {what}.",
        "several": "{who} cannot take the trip in any of the {places} ways to put it into its day: {parts}.",
        "part": "in {count}, {what}",
        "pickup": "it would reach the pickup at {minute} at the earliest, after the hour in which the rider can be picked up",
        "drop": "it would reach the drop-off at {minute} at the earliest, after the minute by which the rider has to be there",
        "others": "it would reach another rider's stop at {minute} at the earliest, after the time promised to that rider",
        "hours": "it would be back at {minute} at the earliest, after its day has ended",
        "hours-until": "it would be back at {minute} at the earliest, and has to be back by {closes}",
        "day": "so that its day is not too long it would leave at {leaves} at the earliest, and so reach a stop at {minute}, "
        "after the time promised there",
        "load": "it would have too few seats or wheelchair places at some stop",
        "no-road": "the driving times have no way on from some stop",
        "length": "its day would have too many stops",
        "later": "{clock}, {days} days later",
        "checked": "Checked by `desk audit`: it says yes to this log.",
        "not-checked": "Not checked: `desk audit` was not asked. It alone decides whether this log is right.",
        "not-said": "What this does not say",
        "not-said-1": "It keeps every stop that is planned in its van and in its order. It does not say "
        "whether another plan of the day would have had room.",
        "not-said-2": "It does not look at another time, or at a van that was not on duty.",
        "not-said-3": "It is still a denial, for which the agency answers (49 CFR 37.131(f)).",
        "log": "The log, line by line",
    },
    "es": {
        "title": "Por qué no hubo vehículo para este viaje",
        "no-way": "En la tabla de recorridos no hay ningún camino entre los dos lugares.",
        "none": "El registro no tiene ningún vehículo. O ninguno estaba en servicio ese día, o al registro le faltan vehículos: `desk audit` lo decide.",
        "vehicle": "La van {number}",
        "named": "{name} (van {number})",
        "alone": "{who} no puede hacer el viaje: {what}.",
        "several": "{who} no puede hacer el viaje en ninguna de las {places} maneras de ponerlo en su día: {parts}.",
        "part": "en {count}, {what}",
        "pickup": "llegaría a recoger al pasajero a las {minute} como muy temprano, después de la hora en que se le puede recoger",
        "drop": "llegaría al destino a las {minute} como muy temprano, después del minuto en que el pasajero tiene que estar allí",
        "others": "llegaría a la parada de otro pasajero a las {minute} como muy temprano, después de la hora prometida a ese pasajero",
        "hours": "regresaría a las {minute} como muy temprano, cuando su día ya terminó",
        "hours-until": "regresaría a las {minute} como muy temprano, y tiene que regresar a más tardar a las {closes}",
        "day": "para que su día no sea demasiado largo saldría a las {leaves} como muy temprano, y llegaría a una parada a las {minute}, "
        "después de la hora prometida ahí",
        "load": "le faltarían asientos o espacios para silla de ruedas en alguna parada",
        "no-road": "la tabla de recorridos no tiene camino desde alguna parada",
        "length": "su día tendría demasiadas paradas",
        "later": "{clock}, {days} días después",
        "checked": "Verificado por `desk audit`: dice que este registro es correcto.",
        "not-checked": "Sin verificar: no se preguntó a `desk audit`. Solo él decide si este registro es correcto.",
        "not-said": "Lo que esto no dice",
        "not-said-1": "Deja cada parada planeada en su van y en su orden. No dice si otro plan del día habría tenido lugar.",
        "not-said-2": "No mira otra hora, ni una van que no estaba en servicio.",
        "not-said-3": "Sigue siendo una negativa, de la que la agencia responde (49 CFR 37.131(f)).",
        "log": "El registro, línea por línea",
    },
}


def clock(minute: int, language: str) -> str:
    """A minute of the day on a clock of twelve hours; one after midnight says so."""
    half = ("AM", "PM") if language == "en" else ("a. m.", "p. m.")
    time = f"{minute // 60 % 12 or 12}:{minute % 60:02} {half[minute % 1440 >= 720]}"
    if minute >= 2880:
        return TEXTS[language]["later"].format(clock=time, days=minute // 1440)
    later = {"en": " of the next day", "es": " del día siguiente"}[language]
    return f"{time}{later if minute >= 1440 else ''}"


def sentences(refusal: Refusal, facts: Facts, language: str) -> str:
    """What kept a vehicle from taking the trip, as one sentence: what was in the way most often comes first."""
    texts = TEXTS[language]
    name = facts.names.get(refusal.vehicle)
    who = texts["named" if name else "vehicle"].format(name=name, number=refusal.vehicle)
    closes = facts.closes.get(refusal.vehicle)
    whats = [(it.places, _what(it, closes, texts, language)) for it in refusal.reasons]
    if len(whats) == 1:
        return texts["alone"].format(who=who, what=whats[0][1])
    parts = "; ".join(texts["part"].format(count=count, what=what) for count, what in whats)
    return texts["several"].format(who=who, places=refusal.places, parts=parts)


def _what(reason: Reason, closes: int | None, texts: Mapping[str, str], language: str) -> str:
    minute = "" if reason.minute is None else clock(reason.minute, language)
    if reason.kind == HOURS and closes is not None:
        return texts["hours-until"].format(minute=minute, closes=clock(closes, language))
    leaves = "" if reason.leaves is None else clock(reason.leaves, language)
    return texts[reason.kind].format(minute=minute, leaves=leaves)
