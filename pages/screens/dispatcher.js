// The radio: the day as a picture and as a table, how trips ended, the vehicles, and what to do
// where one is out of service.

import { t } from "../parts/words.js";
import { ridersTrips } from "./clerk.js";
import { dayPicture } from "./dispatcher-day.js";
import { outOfService } from "./dispatcher-out.js";
import { dayTrips } from "./dispatcher-trips.js";
import { vehicles } from "./dispatcher-vehicles.js";
import { worklist } from "./worklist.js";

export const dispatcher = () => [
    { id: "day", name: t("dispatcher.day"), draw: dayPicture },
    { id: "trips", name: t("dispatcher.trips"), draw: dayTrips },
    { id: "riders", name: t("dispatcher.riders"), draw: ridersTrips },
    { id: "out", name: t("dispatcher.out"), draw: outOfService },
    { id: "vehicles", name: t("dispatcher.vehicles"), draw: vehicles },
    { id: "waits", name: t("dispatcher.waits"), draw: () => worklist("dispatcher") }
];
