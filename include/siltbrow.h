/* Siltbrow: the incoming isochrone of a walking network with scheduled rides,
 * and the outgoing one of a courier.
 *
 * docs/RULES.md has the rules in full, by number.
 *
 * Every slice is a pointer and then a length in bytes. NULL with length 0 is
 * an empty slice. Nothing is allocated, nothing is kept between calls, and
 * calls may run at the same time on the same tables.
 *
 * Below the calls stand names for the numbers used here, and a few inline
 * functions for the bytes. examples/streets.c is one query, examples/server.c
 * answers many at once from threads, examples/timetable.c begins with an
 * operator's timetable, examples/courier.c sends a courier out,
 * examples/prams.c gives passengers time to change.
 *
 * The tables are big-endian records of fixed size with no header, numbered
 * from 0. Times are signed seconds from midnight of the service day; all other
 * fields are unsigned. Fields have 4 bytes where no size is given.
 *
 *   vertex, 12 bytes: first arriving walk, first arriving hop,
 *                     departing records (2 bytes), zero (2 bytes)
 *   walk,   16 bytes: from, to, wait in seconds (1 byte), length in decimetres
 *                     (3 bytes), twin or FFFFFFFF
 *   hop,    16 bytes: from, to, departure, arrival
 *       or  20 bytes: the same and the trip, 0 for unknown
 *
 * Every call that takes the three tables takes the size of a hop record behind
 * them: hop_size, 16 or 20, the same for the whole table. A caller that knows
 * no trips passes 16 (SILTBROW_HOP_SIZE), and its tables stay as they are. A
 * trip says which vehicle a ride belongs to; no answer depends on it but that of
 * siltbrow_run_boarding.
 *
 * The wait of a walk is spent at its "to" end, as at the lights of a crossing.
 * Offset "length" lies past it and every smaller offset before it. A table
 * without waits has lengths of 4 bytes whose first byte is 0.
 *
 * siltbrow_check judges the three tables, which it only reads, and returns
 * refusal * 2^32 + place: 0 where nothing is refused, otherwise the lowest
 * refusal number and, of that number, the lowest place.
 *
 *   refusal 1: a length is no whole number of records, or a count is outside
 *              its limits: 1 to 65,536 vertices, up to 262,144 walks, up to
 *              262,144 hops (place: 0 vertex, 1 walk, 2 hop table); and where
 *              hop_size is not 16 or 20, also over an empty hop table (2)
 *   refusal 2: a walk's end is no vertex, its ends are equal, its length is
 *              not 1 to 100,000, its wait is above 120, or its twin is not
 *              the same road the other way, as long, that names it back; the
 *              waits of twins may differ (place: the walk record)
 *   refusal 3: a hop's end is no vertex, its ends are equal, its times are
 *              not -86,400 to 172,800, or it arrives before it departs; one
 *              that arrives as it departs is good (place: the hop record)
 *   refusal 4: a walk's "to" is below that of the walk before (the record)
 *   refusal 5: a hop's "to" is below that of the hop before (the record)
 *   refusal 6: a vertex's first walk, first hop, departing count or zero is
 *              wrong (the vertex)
 *
 *   uint64_t answer = siltbrow_check(v, v_len, w, w_len, h, h_len, 16);
 *   uint32_t refusal = (uint32_t)(answer >> 32), place = (uint32_t)answer;
 *
 * siltbrow_run answers one query over the three tables, which it only reads.
 * It searches backward from the query place and settles one vertex a step: of
 * those whose distance the query place or a record into a settled vertex gives
 * them, the one at the smallest distance, then with the smallest number. So
 * distances never fall; and where rides take no time, a smaller number can
 * follow a larger one at the same distance.
 *
 *   record:   the walk on which the query place lies
 *   offset:   where on it, in decimetres from its "from": 0 to its length
 *   arrival:  by when to be there, in seconds: 0 to 172,800
 *   duration: how long the way may take, in seconds: 1 to 86,400
 *   speed:    of walking, in decimetres a second: 1 to 100
 *   limit:    how many vertices are settled at most, 0 allowed; a limit of
 *             65,536 or more is none
 *
 * Distances are in ticks before the arrival: a second has "speed" of them, and
 * a decimetre walked takes one. A walk takes its length and its wait. The way
 * from "from" straight to the query place takes the wait only where the place
 * is offset "length"; on the twin, only where it is offset 0. "None" is
 * FFFFFFFF.
 *
 * It fills two lent buffers with big-endian records, and what is left of each
 * with zero. All fields have 4 bytes.
 *
 *   held,    16 bytes: vertex, distance or none, state (0 unsettled,
 *                      1 settled), remaining: how many of its departing
 *                      records do not lead to a settled vertex; in ascending
 *                      order of vertex. These are the vertices that the search
 *                      has met and still needs: with none remaining a vertex
 *                      goes once it is settled, and one that is not settled
 *                      goes if its distance is above the duration in ticks, or
 *                      none, since it can then never be settled.
 *   settled,  8 bytes: vertex, distance; in the order of settling
 *
 * One held and one settled record for each vertex are always enough. Less may
 * do: a run is refused only if what it has to write, or holds after one of its
 * steps, does not fit.
 *
 * The answer is one more slice, of 24 bytes: six numbers of 4 bytes each,
 * big-endian.
 *
 *   refusal, place: both 0 where nothing is refused
 *   settled count: the records written; 0 in a refusal
 *   part count: always 0, parts are made by siltbrow_parts
 *   held count: the records written; 0 in a refusal
 *   finished: 1 if nothing within the duration is left to settle, 0 if the
 *             limit came first; 0 in a refusal
 *
 * More time, same beginning: of two finished runs over the same tables whose
 * queries differ in the duration alone, the settled records of the shorter are
 * the first of the longer, and what the longer lists besides is farther than
 * the shorter duration allows. So a slider runs once, with its longest
 * duration, and cuts the list at the first distance above duration times
 * speed. Held records and parts cannot be cut: ask for the parts anew. So it is
 * with the courier's calls too.
 *
 * It returns 0, for a refusal too. Where the answer slice is not 24 bytes it
 * returns 1 and writes nothing at all.
 *
 *   refusals 1 to 6: as in the check; and 1 also where the length of a lent
 *                    buffer is no whole number of records (place: 3 held,
 *                    4 settled)
 *   refusal 7:  the query (place: 0 record, 1 offset, 2 arrival, 3 duration,
 *               4 speed)
 *   refusal 8:  too little room for held records (place: the step)
 *   refusal 9:  too little room for settled records (the step)
 *
 * The lowest number is given, then the lowest place; but of 8 and 9 that of
 * the earliest step, then the lowest number. Step 0 comes before any vertex is
 * settled. Refusals 1 to 7 change no byte of the two lent buffers; 8 and 9
 * leave both zero.
 *
 * siltbrow_parts tells which parts of the walks are covered, from a list of
 * settled vertices that it only reads. The query is that of the run, without
 * its limit. A page that shows no streets has no need of it.
 *
 *   list,   8 bytes a record: vertex, distance; any vertices that exist and
 *           differ, in any order, at distances up to the duration in ticks
 *   parts, 12 bytes a record: walk record, start, end: from there to there the
 *           walk is covered, both ends included; first those at the query
 *           place (step 0), then those of each entry of the list in turn. One
 *           walk can have two parts. What is left of the buffer is zero.
 *           Where a walk has a wait, its part is as long as the time beyond
 *           that allows, and there is none where the time does not reach it.
 *
 * The list is the slice as it is given. For the list of a run that is 8 bytes
 * times its settled count (SILTBROW_LIST_BYTES), and not its whole settled
 * buffer: the zeros behind the list would be read as vertex 0 at distance 0.
 * Two such records are refused as a repeat. One of them, where vertex 0 is not
 * settled, is not, and gives parts that need not be covered.
 *
 * Two parts more than there are walks are always enough, whatever the list.
 *
 * The answer is one more slice, of 12 bytes: three numbers of 4 bytes each,
 * big-endian.
 *
 *   refusal, place: both 0 where nothing is refused
 *   part count: the records written; 0 in a refusal
 *
 * It returns 0, for a refusal too. Where the answer slice is not 12 bytes it
 * returns 1 and writes nothing at all.
 *
 *   refusals 1 to 6: as in the check; and 1 also where the length of the list
 *                    or of the part buffer is no whole number of records
 *                    (place: 4 list, 5 parts)
 *   refusal 7:  the query, as in the run
 *   refusal 21: an entry of the list: its vertex does not exist, an earlier
 *               entry has it, or its distance is above the duration in ticks
 *               (place: the entry, counted from 0)
 *   refusal 10: too little room for parts (place: the step: 0 for the parts
 *               at the query place, otherwise the entry of the list plus 1)
 *
 * They are judged in this order, so that 21 comes before 10, and of one number
 * the lowest place is given. Refusals 1 to 7 and 21 change no byte of the part
 * buffer; 10 leaves it zero. The list and a run's buffers are never written.
 *
 * siltbrow_frame answers the frame of a settled list on the map: the smallest
 * and the largest of each coordinate of the listed vertices. It reads the
 * vertex table (its length alone), the list and a table of coordinates, and
 * fills its answer. It looks at no walk, no hop and no query.
 *
 *   list,         8 bytes an entry: vertex, distance (not looked at). Pass the
 *                 8 * settled bytes that a run has counted, not the whole
 *                 buffer: its zero rest reads as entries of vertex 0.
 *   coordinates,  8 bytes a vertex: x, y, the bits of a 32-bit float each,
 *                 big-endian
 *   answer,      24 bytes: refusal, place, least x, greatest x, least y,
 *                 greatest y. Each coordinate is one of the stored patterns,
 *                 bit for bit; between equals, -0.0 and 0.0 among them, that
 *                 of the earliest entry stays.
 *
 * It returns 0, for a refusal too, with the four coordinates zero. Where the
 * answer slice is not 24 bytes it returns 1 and writes nothing at all.
 *
 *   refusal 1:  a length is no whole number of records, or there are not 1 to
 *               65,536 vertices (place: 0 vertex table, 4 list), or the
 *               coordinate table has not one point for each vertex (6)
 *   refusal 21: the entry's vertex does not exist, or an earlier entry has it
 *               (place: the entry)
 *   refusal 23: a coordinate in the table is not finite, whether its vertex is
 *               listed or not (the vertex)
 *   refusal 24: the list is empty (0)
 *
 * The lowest number is given, then the lowest place.
 *
 * siltbrow_hops_forward moves a hop table from records of 16 bytes to records
 * of 20, with trip 0 in each. siltbrow_hops_backward moves one from 20 bytes to
 * 16, and does so exactly if every trip is 0, so that nothing is lost. Forward
 * then backward gives the same bytes. What the records say is not judged. Both
 * read the source, fill the target, and return refusal * 2^32 + place.
 *
 *   refusal 1:  the source is no whole number of records, or has more than
 *               262,144 (place: 2); the target is not exactly as many records
 *               long as the source (6)
 *   refusal 11: backward alone: a trip is not 0 (the first such record)
 *
 * They are judged in this order. A refused move changes no byte of the target.
 *
 * siltbrow_judge tells whether a list from elsewhere is right for a query: it
 * has just the vertices within the duration, with their distances, and says of
 * each why. The tables, the size of a hop and the query are those of
 * siltbrow_parts. It only reads, and returns refusal * 2^32 + place.
 *
 *   list, 12 bytes a record: vertex, distance, and the record with which a
 *         journey from there starts: walks are numbered first, then hops, so
 *         that hop h has the number of walks plus h; FFFFFFFF where the vertex
 *         is an end of the query's walk and goes straight to the place
 *
 * The settled records of a finished run, with such a record behind each, are
 * always right, in their order. Any other order is right too in which each
 * named record leads to the vertex of an earlier entry. An empty list is right
 * where neither end of the query's walk reaches the place in time.
 *
 *   refusals 1 to 7: as in the run; 1 also where the length of the list is no
 *               whole number of records (place: 4)
 *   refusal 25: the entry's vertex does not exist, or an earlier entry has it
 *               (place: the entry, counted from 0)
 *   refusal 26: its distance is above the duration in ticks (the entry)
 *   refusal 27: its record is not one that leads from its vertex to that of an
 *               earlier entry and gives its distance from the one listed there;
 *               or it is FFFFFFFF, and the way straight to the place does not
 *               give that distance (the entry)
 *   refusal 28: a listed vertex can be nearer, or one that is not listed can be
 *               within the duration: by the way straight to the place (place:
 *               FFFFFFFE from "from" of the query's walk, FFFFFFFF from its
 *               "to"), or, where neither gives that, by a record to a listed
 *               vertex (the lowest such record, walks numbered first)
 *
 * They are judged in this order, so that every 25 comes before any 26, and of
 * one number the first is given, for 28 the two ends before the records. 0
 * says that the list is right.
 *
 * siltbrow_runs answers many queries over the same tables, which it judges
 * once. It is what as many calls of siltbrow_run would be, one after the other.
 *
 *   queries, 24 bytes a record: record, offset, arrival (signed), duration,
 *            speed, limit (siltbrow_put_query)
 *   held:    serves each query in turn: its contents are those of the last
 *            query that was not refused with 1 to 7
 *   settled: has a share for each query, in their order, each of as many
 *            records: all of its records divided by the queries, rounded down
 *            (SILTBROW_SHARE_BYTES). What is behind the last share is not
 *            written.
 *   answers: 24 bytes for each query, as of siltbrow_run
 *
 * It returns 1 and writes nothing at all where the queries are no whole number
 * of records, or the answers are not 24 bytes for each; otherwise 0, also for
 * no query.
 *
 * Each query has its own refusal, which changes nothing for the next: 1 to 6,
 * which are then those of every query, 7, 8 or 9. Of 1 the places are 0 to 3:
 * a share has whole records whatever the length of the settled buffer. 1 to 7
 * leave its share and the held buffer as they are, 8 and 9 leave both zero.
 *
 * siltbrow_patients tells whom several arrivals reach, one after the other: a
 * run without a limit for each, over tables that it judges once. The query has
 * the first arrival.
 *
 *   gap:      seconds from one arrival to the next: 1 to 3,600
 *   arrivals: how many there are: 1 to 96; the last is not after 172,800
 *   patients, 4 bytes a vertex: how many patients live there, at most 65,535
 *   report,   4 bytes a figure: for each vertex in how many arrivals it is
 *             settled; then for each arrival the patients of the vertices
 *             settled there; then the total of all patients, reached or not
 *             (SILTBROW_REPORT_BYTES)
 *   held, settled, answer: as the last run leaves them
 *
 * It returns 0, for a refusal too. Where the answer slice is not 24 bytes it
 * returns 1 and writes nothing at all.
 *
 *   refusals 1 to 7: as in the run, 7 for the first arrival; and 1 also where
 *               the patients are not one count for each vertex (place: 6), or
 *               the report is not as long as it has to be (7)
 *   refusal 19: a count above 65,535 (place: the vertex)
 *   refusal 20: the gap (place: 0), the number of arrivals (1), or the last
 *               arrival (2)
 *   refusals 8 and 9: as in the first run that gives one (the step)
 *
 * They are judged in this order. Refusals 1 to 7, 19 and 20 change no byte of
 * held, settled and report; 8 and 9 leave the three zero.
 *
 * siltbrow_timetable makes hops of 20 bytes from an operator's timetable. It
 * reads three texts, of any bytes and any length, and fills a target.
 *
 *   stop_times: a GTFS file stop_times.txt. Lines end in LF or CRLF, the last
 *               perhaps in neither; empty ones are passed over. Fields have
 *               commas between them; one that begins with a quote (") ends at
 *               the next, and two quotes inside it are one. Line 1 names the
 *               columns: trip_id, stop_id, arrival_time, departure_time and
 *               stop_sequence once each, in any order, among any others.
 *               Times are H:MM:SS or HH:MM:SS up to 47:59:59, or blank: one
 *               given time stands for both, and a stop with none is passed
 *               over. The lines of a trip may stand anywhere; its stops are
 *               ordered by stop_sequence, a number of 32 bits.
 *   stops:      lines of a stop id and its vertex, up to 65,535; no header
 *   trips:      lines of a trip id and its number of 32 bits, 0 for unknown;
 *               in both lists the first line of an id counts. Several ids may
 *               have one number, and are several trips.
 *   hops:       20 bytes a record: for each timed stop of a trip and the next
 *               timed one a hop, or none where both are one vertex; in
 *               ascending order of "to", then of the line of the departure.
 *               What is left of the target is zero.
 *
 * The hops are in the order that the tables ask for, so that refusal 5 never
 * comes of them; nor does 3, where every vertex of the list of stops is one of
 * the tables. The vertex table is the caller's to make: first arriving hops
 * and departing records count them (examples/timetable.c).
 *
 * There are fewer hops than line ends: siltbrow_timetable_room gives bytes that
 * are enough wherever 262,144 hops are.
 *
 * The answer is one more slice, of 12 bytes: three numbers of 4 bytes each,
 * big-endian.
 *
 *   refusal, place: both 0 where nothing is refused
 *   hop count: the records written; 0 in a refusal
 *
 * It returns 0, for a refusal too. Where the answer slice is not 12 bytes it
 * returns 1 and writes nothing at all.
 *
 *   refusal 1:  the target is no whole number of records of 20 bytes, or has
 *               more than 262,144 (place: 2)
 *   refusal 29: a line of stops is not an id and a vertex, or, where all of
 *               these are, a line of trips is not an id and a number (place:
 *               its line, counted from 1 with the empty ones, as all lines)
 *   refusal 12: line 1 of stop_times lacks one of the five columns or has one
 *               twice (1)
 *   refusal 13: a line has stray or open quotes, another number of fields than
 *               line 1, a bad time, or no sequence of 32 bits (the line)
 *   refusal 14: the stop or the trip of a line is not in its list (the line)
 *   refusal 15: an earlier line of the trip has the sequence (the line)
 *   refusal 16: the first or last stop of a trip has no time, or times fall: a
 *               departure before the arrival at that stop, or an arrival
 *               before the departure of the timed stop before it (the line of
 *               the stop, of two that of the later one in the trip)
 *   refusal 17: there are more hops than the target can take (0)
 *
 * They are judged in this order, each over the whole file before the next, and
 * of one number the lowest line is given. Refusal 1 changes no byte of the
 * target, the others leave it zero.
 *
 * siltbrow_courier_list makes the list of record numbers that a courier's calls
 * go by. It is made once for the tables and kept beside them.
 *
 *   list, 4 bytes a number, big-endian: the records of both tables, walks
 *         numbered first, then hops, so that hop h has the number of walks
 *         plus h; ordered by "from", then by number
 *         (SILTBROW_COURIER_LIST_BYTES)
 *
 * It returns refusal * 2^32 + place: 1 to 6 as in the check, and 1 also where
 * the list is not exactly 4 bytes for each record (place: 6, behind 0 to 2). A
 * refusal changes no byte of the list.
 *
 * siltbrow_courier answers which vertices a courier reaches from the query
 * place: it is siltbrow_run in the other direction. Record, offset, duration,
 * speed and limit are those of siltbrow_run; "departure" is when he leaves the
 * place, 0 to 172,800, and distances are in ticks after that. The list of
 * record numbers is read, and judged each time.
 *
 * He leaves along the query's walk to its "to", and along its twin, if any, to
 * its "from"; where the offset is the length he is at "to" already, and where
 * it is 0 at "from", twin or none. A walk takes its length and then its wait,
 * from wherever on it he comes. A hop is boarded by who is at its "from" as it
 * departs, or before.
 *
 *   held,    16 bytes: as of siltbrow_run, but remaining is how many of the
 *                      records that arrive at the vertex do not come from a
 *                      settled one
 *   settled, answer, what is returned: as of siltbrow_run
 *
 *   refusals 1 to 6: as in siltbrow_run; and 1 also where the list is not
 *               exactly 4 bytes for each record (place: 6, behind the others)
 *   refusal 22: the list is not that of the tables (place: the first number
 *               that differs, counted from 0)
 *   refusal 7:  the query (place: 0 record, 1 offset, 2 departure, 3 duration,
 *               4 speed)
 *   refusals 8 and 9: as in siltbrow_run
 *
 * They are judged in this order, so that 22 comes before 7. Refusals 1 to 7 and
 * 22 change no byte of the two lent buffers; 8 and 9 leave both zero.
 *
 * siltbrow_courier_parts tells which parts of the walks the courier covers, from
 * a list of settled vertices, as siltbrow_parts does. The tables, the list of
 * record numbers and the query are those of siltbrow_courier, "settled_list" is
 * 8 bytes times its settled count (SILTBROW_LIST_BYTES).
 *
 *   parts, 12 bytes a record: walk record, start, end; first those that begin
 *          at the query place (step 0), on its walk and then on the twin; then
 *          for each entry those of the walks that leave its vertex, from their
 *          start to where the time or the walk ends, on the query's walk and
 *          its twin no further than the place. A part that reaches the length
 *          need not have passed the wait. What is left of the buffer is zero.
 *   answer, what is returned: as of siltbrow_parts
 *
 * Two parts more than there are walks are always enough.
 *
 *   refusals 1 to 6: as in siltbrow_parts; and 1 also where the list of record
 *               numbers is not exactly 4 bytes for each record (place: 6,
 *               behind the others)
 *   refusals 22 and 7: as in siltbrow_courier
 *   refusals 21 and 10: as in siltbrow_parts
 *
 * They are judged in this order. Refusals 1 to 7, 21 and 22 change no byte of
 * the part buffer; 10 leaves it zero.
 *
 * siltbrow_run_boarding is siltbrow_run for passengers who need time to change:
 * one must stand at the stop "boarding" seconds before a departure, 0 to 600,
 * exactly that long being enough. Staying in the vehicle needs none. Hops of one
 * trip, not 0, are one ride where each starts at the vertex where the last ended
 * and not before its arrival; the boarding time is spent once for each ride, the
 * first one too, and one may leave after any of its hops. Hops of 16 bytes, and
 * those of trip 0, are rides of their own. Tables, query and limit are those of
 * siltbrow_run. There is no held list, and one buffer more:
 *
 *   settled, 8 bytes: vertex, distance, as of siltbrow_run and in its order,
 *            with zero behind the records
 *   scratch: 4 bytes for each hop (SILTBROW_SCRATCH_BYTES) or more, of any
 *            contents. It is zero afterwards, all of it.
 *   answer, what is returned: as of siltbrow_run; the held count is 0
 *
 * With a boarding time of 0 it settles what siltbrow_run does, in every byte,
 * whatever the trips are. A longer time settles no vertex that a shorter one
 * does not. siltbrow_parts makes the parts of its list.
 *
 *   refusals 1 to 6: as in siltbrow_run, but of 1 the places are 0, 1, 2 and 4
 *   refusal 7:  the query, as in the run; then the boarding time (place: 5)
 *   refusal 18: the scratch has less than 4 bytes for each hop (place: 0)
 *   refusal 9:  too little room for settled records (the step)
 *
 * They are judged in this order. Refusals 1 to 7 and 18 change no byte of the
 * two lent buffers; 9 leaves both zero.
 *
 * Until it returns, a call uses its buffers, its target and its answer alone:
 * they overlap neither one another nor what the call reads.
 *
 * What a call costs:
 *
 * - Each run checks its tables first, which takes as long as siltbrow_check,
 *   and so do siltbrow_parts and siltbrow_judge. At the full size of 65,536
 *   vertices and 9.2 MB that is some 5 to 20 ms, more than the search of a short
 *   query. siltbrow_runs checks them once for all its queries, and
 *   siltbrow_patients once for all its arrivals. The courier's calls check them
 *   too, and then the list. docs/BENCH.md has the times.
 * - Vertices that lie near one another should have near numbers: what a call
 *   reads then lies together.
 * - Every lent buffer is written whole, with zero behind the records. A buffer
 *   that is larger than needed costs time at every call.
 * - One held record for each vertex keeps the search fast on any tables. With
 *   less room tables can be made on which a run takes over a second.
 * - A frame of 65,536 entries takes about a millisecond.
 * - A timetable is read in time that grows with its lines and their logarithm,
 *   in whatever order they stand, where the target has a record for each of
 *   them or nearly. With far less room, as where few hops are to be expected of
 *   many lines, the file is read many times.
 * - A call uses less than 8 KB of stack, 4,096 bytes of them for its arrays;
 *   siltbrow_judge less than 264 KB, 256 KB of them for an array;
 *   siltbrow_timetable less than 144 KB, 131,072 bytes of them for its arrays,
 *   whatever the texts: a line of a million fields takes no more;
 *   siltbrow_run_boarding less than 1,136 KB, 1,155,072 bytes of them for its
 *   arrays.
 * - The library is code for x86-64 Linux. It needs memset and nothing else.
 *   siltbrow_frame compares floats: call it with denormal numbers as they are,
 *   not taken for zero (the bit DAZ of MXCSR, which -ffast-math can set).
 */
#ifndef SILTBROW_H
#define SILTBROW_H

#include <stddef.h>
#include <stdint.h>
#include <string.h>

/* The second number moves where a call changes, the third where only the
 * inside does; the first is 1 since all calls are there.
 *
 * 1.0: siltbrow_run_boarding is new, and with it refusal 18.
 * 0.12: siltbrow_courier_list, siltbrow_courier and siltbrow_courier_parts are
 *      new, and with them refusal 22.
 * 0.11: siltbrow_timetable is new, and with it refusals 12 to 17 and 29.
 * 0.10: siltbrow_patients is new, and with it refusals 19 and 20.
 * 0.9: siltbrow_runs is new.
 * 0.8: siltbrow_judge is new, and with it refusals 25 to 28.
 * 0.7: siltbrow_run no longer holds a vertex that can never be settled. Its held
 *      list, and the room that it needs for that, can be smaller; what is
 *      settled and covered stays.
 * 0.6: the first byte of a walk's length is a wait at its "to" end; tables in
 *      which it is 0 mean what they meant. siltbrow_get_length,
 *      siltbrow_get_wait and siltbrow_put_length are new: a caller that reads
 *      lengths takes them apart by these.
 * 0.5: a hop that arrives as it departs is no longer refused. Vertices at one
 *      distance can then be settled in another order than that of their
 *      numbers; on tables without such hops nothing changes.
 * 0.4: siltbrow_check, siltbrow_run and siltbrow_parts take hop_size behind the
 *      hops: a caller whose hops have 16 bytes adds SILTBROW_HOP_SIZE there,
 *      and gets what it got. siltbrow_hops_forward and siltbrow_hops_backward
 *      are new, and with them refusal 11.
 * 0.3: siltbrow_run has lost its part buffer, its part count is always 0 and
 *      refusal 10 is gone from it; siltbrow_parts makes the parts. A page that
 *      shows streets calls it with the records that the run has settled.
 * 0.2: siltbrow_frame is new. */
#define SILTBROW_VERSION "1.0.0"
#define SILTBROW_VERSION_MAJOR 1
#define SILTBROW_VERSION_MINOR 0
#define SILTBROW_VERSION_PATCH 0

#ifdef __cplusplus
extern "C" {
#endif

uint64_t siltbrow_check(const uint8_t *vertices, size_t vertices_len,
                        const uint8_t *walks, size_t walks_len,
                        const uint8_t *hops, size_t hops_len, uint32_t hop_size);

uint32_t siltbrow_run(const uint8_t *vertices, size_t vertices_len,
                      const uint8_t *walks, size_t walks_len,
                      const uint8_t *hops, size_t hops_len, uint32_t hop_size,
                      uint32_t record, uint32_t offset, int32_t arrival,
                      uint32_t duration, uint32_t speed, uint32_t limit,
                      uint8_t *held, size_t held_len,
                      uint8_t *settled, size_t settled_len,
                      uint8_t *answer, size_t answer_len);

uint32_t siltbrow_parts(const uint8_t *vertices, size_t vertices_len,
                        const uint8_t *walks, size_t walks_len,
                        const uint8_t *hops, size_t hops_len, uint32_t hop_size,
                        uint32_t record, uint32_t offset, int32_t arrival,
                        uint32_t duration, uint32_t speed,
                        const uint8_t *list, size_t list_len,
                        uint8_t *parts, size_t parts_len,
                        uint8_t *answer, size_t answer_len);

uint32_t siltbrow_frame(const uint8_t *vertices, size_t vertices_len,
                        const uint8_t *list, size_t list_len,
                        const uint8_t *coordinates, size_t coordinates_len,
                        uint8_t *answer, size_t answer_len);

uint64_t siltbrow_hops_forward(const uint8_t *source, size_t source_len,
                               uint8_t *target, size_t target_len);

uint64_t siltbrow_hops_backward(const uint8_t *source, size_t source_len,
                                uint8_t *target, size_t target_len);

uint64_t siltbrow_judge(const uint8_t *vertices, size_t vertices_len,
                        const uint8_t *walks, size_t walks_len,
                        const uint8_t *hops, size_t hops_len, uint32_t hop_size,
                        uint32_t record, uint32_t offset, int32_t arrival,
                        uint32_t duration, uint32_t speed,
                        const uint8_t *list, size_t list_len);

uint32_t siltbrow_runs(const uint8_t *vertices, size_t vertices_len,
                       const uint8_t *walks, size_t walks_len,
                       const uint8_t *hops, size_t hops_len, uint32_t hop_size,
                       const uint8_t *queries, size_t queries_len,
                       uint8_t *held, size_t held_len,
                       uint8_t *settled, size_t settled_len,
                       uint8_t *answers, size_t answers_len);

uint32_t siltbrow_patients(const uint8_t *vertices, size_t vertices_len,
                           const uint8_t *walks, size_t walks_len,
                           const uint8_t *hops, size_t hops_len, uint32_t hop_size,
                           uint32_t record, uint32_t offset, int32_t arrival,
                           uint32_t duration, uint32_t speed,
                           uint32_t gap, uint32_t arrivals,
                           const uint8_t *patients, size_t patients_len,
                           uint8_t *held, size_t held_len,
                           uint8_t *settled, size_t settled_len,
                           uint8_t *report, size_t report_len,
                           uint8_t *answer, size_t answer_len);

uint32_t siltbrow_timetable(const uint8_t *stop_times, size_t stop_times_len,
                            const uint8_t *stops, size_t stops_len,
                            const uint8_t *trips, size_t trips_len,
                            uint8_t *hops, size_t hops_len,
                            uint8_t *answer, size_t answer_len);

uint64_t siltbrow_courier_list(const uint8_t *vertices, size_t vertices_len,
                               const uint8_t *walks, size_t walks_len,
                               const uint8_t *hops, size_t hops_len, uint32_t hop_size,
                               uint8_t *list, size_t list_len);

uint32_t siltbrow_courier(const uint8_t *vertices, size_t vertices_len,
                          const uint8_t *walks, size_t walks_len,
                          const uint8_t *hops, size_t hops_len, uint32_t hop_size,
                          const uint8_t *list, size_t list_len,
                          uint32_t record, uint32_t offset, int32_t departure,
                          uint32_t duration, uint32_t speed, uint32_t limit,
                          uint8_t *held, size_t held_len,
                          uint8_t *settled, size_t settled_len,
                          uint8_t *answer, size_t answer_len);

uint32_t siltbrow_courier_parts(const uint8_t *vertices, size_t vertices_len,
                                const uint8_t *walks, size_t walks_len,
                                const uint8_t *hops, size_t hops_len, uint32_t hop_size,
                                const uint8_t *list, size_t list_len,
                                uint32_t record, uint32_t offset, int32_t departure,
                                uint32_t duration, uint32_t speed,
                                const uint8_t *settled_list, size_t settled_list_len,
                                uint8_t *parts, size_t parts_len,
                                uint8_t *answer, size_t answer_len);

uint32_t siltbrow_run_boarding(const uint8_t *vertices, size_t vertices_len,
                               const uint8_t *walks, size_t walks_len,
                               const uint8_t *hops, size_t hops_len, uint32_t hop_size,
                               uint32_t record, uint32_t offset, int32_t arrival,
                               uint32_t duration, uint32_t speed,
                               uint32_t boarding, uint32_t limit,
                               uint8_t *settled, size_t settled_len,
                               uint8_t *scratch, size_t scratch_len,
                               uint8_t *answer, size_t answer_len);

/* The bytes of each record, of an entry of siltbrow_judge, of a query of
 * siltbrow_runs, of a count of patients or a figure of their report, of a point
 * of the coordinate table, of a number of the courier's list, of the answer of
 * a run, a frame or an evening, of that of parts, and of that of
 * siltbrow_timetable. */
#define SILTBROW_VERTEX_SIZE 12u
#define SILTBROW_WALK_SIZE 16u
#define SILTBROW_HOP_SIZE 16u
#define SILTBROW_HOP_WITH_TRIP_SIZE 20u
#define SILTBROW_HELD_SIZE 16u
#define SILTBROW_SETTLED_SIZE 8u
#define SILTBROW_PART_SIZE 12u
#define SILTBROW_ENTRY_SIZE 12u
#define SILTBROW_QUERY_SIZE 24u
#define SILTBROW_FIGURE_SIZE 4u
#define SILTBROW_POINT_SIZE 8u
#define SILTBROW_NUMBER_SIZE 4u
#define SILTBROW_ANSWER_SIZE 24u
#define SILTBROW_PARTS_ANSWER_SIZE 12u
#define SILTBROW_TIMETABLE_ANSWER_SIZE 12u

/* "None" as a distance, and "no twin". */
#define SILTBROW_NONE 0xFFFFFFFFu
/* In an entry of siltbrow_judge: straight to the place, by no record. */
#define SILTBROW_SEED 0xFFFFFFFFu
/* The places of refusal 28 that are no record: the ends of the query's walk. */
#define SILTBROW_SEED_FROM 0xFFFFFFFEu
#define SILTBROW_SEED_TO 0xFFFFFFFFu
/* No step limit. */
#define SILTBROW_NO_LIMIT 0xFFFFFFFFu

/* The most that tables and query may have; times and waits are in seconds,
 * lengths in decimetres, speeds in decimetres a second. */
#define SILTBROW_MAX_VERTICES 65536u
#define SILTBROW_MAX_WALKS 262144u
#define SILTBROW_MAX_HOPS 262144u
#define SILTBROW_MAX_LENGTH 100000u
#define SILTBROW_MAX_WAIT 120u
#define SILTBROW_MIN_TIME (-86400)
#define SILTBROW_MAX_TIME 172800
#define SILTBROW_MAX_DURATION 86400u
#define SILTBROW_MAX_SPEED 100u
#define SILTBROW_MAX_PATIENTS 65535u
#define SILTBROW_MAX_GAP 3600u
#define SILTBROW_MAX_ARRIVALS 96u
#define SILTBROW_MAX_BOARDING 600u

/* The refusals: 1 to 6 of the check; 1 to 9 of a run, one or many; 1 to 7, 21 and 10 of
 * parts; 1, 21, 23 and 24 of a frame; 1 of a move, and 11 where it goes
 * backward; 1 to 7 and 25 to 28 of siltbrow_judge; 1 to 7, 19, 20, 8 and 9 of
 * siltbrow_patients; 1, 29 and 12 to 17 of siltbrow_timetable; 1 to 6 of
 * siltbrow_courier_list, 1 to 6, 22, 7, 8 and 9 of siltbrow_courier, 1 to 6, 22,
 * 7, 21 and 10 of siltbrow_courier_parts; 1 to 7, 18 and 9 of
 * siltbrow_run_boarding. */
#define SILTBROW_ACCEPTED 0u
#define SILTBROW_BAD_LENGTH 1u
#define SILTBROW_BAD_WALK 2u
#define SILTBROW_BAD_HOP 3u
#define SILTBROW_WALK_ORDER 4u
#define SILTBROW_HOP_ORDER 5u
#define SILTBROW_BAD_VERTEX 6u
#define SILTBROW_BAD_QUERY 7u
#define SILTBROW_HELD_ROOM 8u
#define SILTBROW_SETTLED_ROOM 9u
#define SILTBROW_PART_ROOM 10u
#define SILTBROW_KNOWN_TRIP 11u
#define SILTBROW_BAD_COLUMNS 12u
#define SILTBROW_BAD_LINE 13u
#define SILTBROW_UNKNOWN_ID 14u
#define SILTBROW_SEQUENCE_REPEATED 15u
#define SILTBROW_BAD_STOP 16u
#define SILTBROW_HOP_ROOM 17u
#define SILTBROW_SCRATCH_ROOM 18u
#define SILTBROW_TOO_MANY_PATIENTS 19u
#define SILTBROW_BAD_EVENING 20u
#define SILTBROW_BAD_ENTRY 21u
#define SILTBROW_OTHER_LIST 22u
#define SILTBROW_BAD_POINT 23u
#define SILTBROW_EMPTY_LIST 24u
#define SILTBROW_LISTED_VERTEX 25u
#define SILTBROW_LISTED_DISTANCE 26u
#define SILTBROW_LISTED_RECORD 27u
#define SILTBROW_BETTER_OFFER 28u
#define SILTBROW_BAD_ID_LINE 29u

/* The bytes of a list, from the settled count of a run: what siltbrow_parts,
 * siltbrow_courier_parts and siltbrow_frame are given of the settled buffer. */
#define SILTBROW_LIST_BYTES(settled) ((size_t)(settled) * SILTBROW_SETTLED_SIZE)

/* The bytes of a share of siltbrow_runs, from those of the settled buffer and
 * the number of queries, which is not 0: share i begins i times as far in. */
#define SILTBROW_SHARE_BYTES(settled_len, queries) \
    ((size_t)(settled_len) / SILTBROW_SETTLED_SIZE / (queries) * SILTBROW_SETTLED_SIZE)

/* The bytes of the report of siltbrow_patients, from those of the vertices and
 * the number of arrivals. */
#define SILTBROW_REPORT_BYTES(vertices_len, arrivals) \
    (((vertices_len) / SILTBROW_VERTEX_SIZE + (arrivals) + 1u) * SILTBROW_FIGURE_SIZE)

/* The bytes of the courier's list, from those of the tables and the size of a
 * hop, which is not 0. */
#define SILTBROW_COURIER_LIST_BYTES(walks_len, hops_len, hop_size) \
    (((walks_len) / SILTBROW_WALK_SIZE + (hops_len) / (hop_size)) * SILTBROW_NUMBER_SIZE)

/* The bytes of scratch that siltbrow_run_boarding needs, from those of the hops
 * and the size of a hop, which is not 0. */
#define SILTBROW_SCRATCH_BYTES(hops_len, hop_size) ((hops_len) / (hop_size) * SILTBROW_NUMBER_SIZE)

/* The bytes of the target of a move, from those of its source. */
#define SILTBROW_FORWARD_BYTES(source_len) ((source_len) / SILTBROW_HOP_SIZE * SILTBROW_HOP_WITH_TRIP_SIZE)
#define SILTBROW_BACKWARD_BYTES(source_len) ((source_len) / SILTBROW_HOP_WITH_TRIP_SIZE * SILTBROW_HOP_SIZE)

/* Bytes that are always enough, from the bytes of a table: for buffers that
 * are arrays as well as for those that are allocated. */
#define SILTBROW_HELD_BYTES(vertices_len) ((vertices_len) / SILTBROW_VERTEX_SIZE * SILTBROW_HELD_SIZE)
#define SILTBROW_SETTLED_BYTES(vertices_len) ((vertices_len) / SILTBROW_VERTEX_SIZE * SILTBROW_SETTLED_SIZE)
#define SILTBROW_PART_BYTES(walks_len) (((walks_len) / SILTBROW_WALK_SIZE + 2u) * SILTBROW_PART_SIZE)

/* The answer of a run, or of a courier's; "parts" is 0, and "held" too where the
 * run has a boarding time. */
typedef struct siltbrow_answer {
    uint32_t refusal;
    uint32_t place;
    uint32_t settled;
    uint32_t parts;
    uint32_t held;
    uint32_t finished;
} siltbrow_answer;

/* The answer of siltbrow_parts or siltbrow_courier_parts. */
typedef struct siltbrow_parts_answer {
    uint32_t refusal;
    uint32_t place;
    uint32_t parts;
} siltbrow_parts_answer;

/* The answer of siltbrow_timetable. */
typedef struct siltbrow_timetable_answer {
    uint32_t refusal;
    uint32_t place;
    uint32_t hops;
} siltbrow_timetable_answer;

/* The answer of siltbrow_frame. */
typedef struct siltbrow_frame_answer {
    uint32_t refusal;
    uint32_t place;
    float least_x;
    float greatest_x;
    float least_y;
    float greatest_y;
} siltbrow_frame_answer;

/* The number in the 4 bytes at "at". */
static inline uint32_t siltbrow_get(const uint8_t *at)
{
    return (uint32_t)at[0] << 24 | (uint32_t)at[1] << 16 | (uint32_t)at[2] << 8 | at[3];
}

/* The same as signed seconds: the times of a hop. */
static inline int32_t siltbrow_get_time(const uint8_t *at)
{
    uint32_t number = siltbrow_get(at);
    return number < 0x80000000u ? (int32_t)number : -(int32_t)~number - 1;
}

/* Puts a number into the 4 bytes at "at". */
static inline void siltbrow_put(uint8_t *at, uint32_t number)
{
    at[0] = (uint8_t)(number >> 24);
    at[1] = (uint8_t)(number >> 16);
    at[2] = (uint8_t)(number >> 8);
    at[3] = (uint8_t)number;
}

/* A coordinate from the 4 bytes at "at", and into them, bit for bit. */
static inline float siltbrow_get_float(const uint8_t *at)
{
    uint32_t bits = siltbrow_get(at);
    float number;
    memcpy(&number, &bits, sizeof number);
    return number;
}

static inline void siltbrow_put_float(uint8_t *at, float number)
{
    uint32_t bits;
    memcpy(&bits, &number, sizeof bits);
    siltbrow_put(at, bits);
}

/* The answer in the 24 bytes that a run has filled. */
static inline siltbrow_answer siltbrow_read_answer(const uint8_t *bytes)
{
    siltbrow_answer answer;
    answer.refusal = siltbrow_get(bytes);
    answer.place = siltbrow_get(bytes + 4);
    answer.settled = siltbrow_get(bytes + 8);
    answer.parts = siltbrow_get(bytes + 12);
    answer.held = siltbrow_get(bytes + 16);
    answer.finished = siltbrow_get(bytes + 20);
    return answer;
}

/* The answer in the 12 bytes that siltbrow_parts has filled. */
static inline siltbrow_parts_answer siltbrow_read_parts(const uint8_t *bytes)
{
    siltbrow_parts_answer answer;
    answer.refusal = siltbrow_get(bytes);
    answer.place = siltbrow_get(bytes + 4);
    answer.parts = siltbrow_get(bytes + 8);
    return answer;
}

/* The answer in the 12 bytes that siltbrow_timetable has filled. */
static inline siltbrow_timetable_answer siltbrow_read_timetable(const uint8_t *bytes)
{
    siltbrow_timetable_answer answer;
    answer.refusal = siltbrow_get(bytes);
    answer.place = siltbrow_get(bytes + 4);
    answer.hops = siltbrow_get(bytes + 8);
    return answer;
}

/* The bytes of a target that takes the hops of a stop_times.txt: a record for
 * each line end, and no more than a hop table may have. */
static inline size_t siltbrow_timetable_room(const uint8_t *stop_times, size_t stop_times_len)
{
    size_t records = 0;
    for (size_t i = 0; i < stop_times_len && records < SILTBROW_MAX_HOPS; i++)
        records += stop_times[i] == '\n';
    return records * SILTBROW_HOP_WITH_TRIP_SIZE;
}

/* The answer in the 24 bytes that siltbrow_frame has filled. */
static inline siltbrow_frame_answer siltbrow_read_frame(const uint8_t *bytes)
{
    siltbrow_frame_answer answer;
    answer.refusal = siltbrow_get(bytes);
    answer.place = siltbrow_get(bytes + 4);
    answer.least_x = siltbrow_get_float(bytes + 8);
    answer.greatest_x = siltbrow_get_float(bytes + 12);
    answer.least_y = siltbrow_get_float(bytes + 16);
    answer.greatest_y = siltbrow_get_float(bytes + 20);
    return answer;
}

/* Length and wait of a walk record, and both put into one. A length has 3
 * bytes, a wait 1: what is above that is lost. */
static inline uint32_t siltbrow_get_length(const uint8_t *walk)
{
    return siltbrow_get(walk + 8) & 0xFFFFFFu;
}

static inline uint32_t siltbrow_get_wait(const uint8_t *walk)
{
    return walk[8];
}

static inline void siltbrow_put_length(uint8_t *walk, uint32_t length, uint32_t wait)
{
    siltbrow_put(walk + 8, (wait & 0xFFu) << 24 | (length & 0xFFFFFFu));
}

/* The trip of a hop record of 20 bytes; 0 is unknown. */
static inline uint32_t siltbrow_get_trip(const uint8_t *hop)
{
    return siltbrow_get(hop + SILTBROW_HOP_SIZE);
}

static inline void siltbrow_put_trip(uint8_t *hop, uint32_t trip)
{
    siltbrow_put(hop + SILTBROW_HOP_SIZE, trip);
}

/* An entry of siltbrow_judge, put into the 12 bytes at "at". The record is that
 * of a walk, the number of walks plus that of a hop, or SILTBROW_SEED. */
static inline void siltbrow_put_entry(uint8_t *at, uint32_t vertex, uint32_t distance, uint32_t record)
{
    siltbrow_put(at, vertex);
    siltbrow_put(at + 4, distance);
    siltbrow_put(at + 8, record);
}

/* A query of siltbrow_runs, put into the 24 bytes at "at". */
static inline void siltbrow_put_query(uint8_t *at, uint32_t record, uint32_t offset, int32_t arrival,
                                      uint32_t duration, uint32_t speed, uint32_t limit)
{
    siltbrow_put(at, record);
    siltbrow_put(at + 4, offset);
    siltbrow_put(at + 8, (uint32_t)arrival);
    siltbrow_put(at + 12, duration);
    siltbrow_put(at + 16, speed);
    siltbrow_put(at + 20, limit);
}

/* Refusal and place in what siltbrow_check, siltbrow_judge,
 * siltbrow_courier_list or a move returns. */
static inline uint32_t siltbrow_check_refusal(uint64_t checked)
{
    return (uint32_t)(checked >> 32);
}

static inline uint32_t siltbrow_check_place(uint64_t checked)
{
    return (uint32_t)(checked & 0xFFFFFFFFu);
}

/* What a refusal means, for a person. */
static inline const char *siltbrow_refusal_text(uint32_t refusal)
{
    switch (refusal) {
    case SILTBROW_ACCEPTED: return "nothing is refused";
    case SILTBROW_BAD_LENGTH: return "a length is no whole number of records, a table has too few or too many, or a hop's size is not 16 or 20";
    case SILTBROW_BAD_WALK: return "a walk's ends, length, wait or twin are wrong";
    case SILTBROW_BAD_HOP: return "a hop's ends or times are wrong";
    case SILTBROW_WALK_ORDER: return "the walks do not ascend by \"to\"";
    case SILTBROW_HOP_ORDER: return "the hops do not ascend by \"to\"";
    case SILTBROW_BAD_VERTEX: return "a vertex's first walk, first hop, departing count or zero is wrong";
    case SILTBROW_BAD_QUERY: return "the query is outside its limits";
    case SILTBROW_HELD_ROOM: return "there is too little room for held records";
    case SILTBROW_SETTLED_ROOM: return "there is too little room for settled records";
    case SILTBROW_PART_ROOM: return "there is too little room for parts";
    case SILTBROW_KNOWN_TRIP: return "a hop's trip is known, and 16 bytes have no place for it";
    case SILTBROW_BAD_COLUMNS: return "line 1 of the stop times lacks a column or has one twice";
    case SILTBROW_BAD_LINE: return "a line of the stop times has wrong quotes, another number of fields than line 1, a bad time or no sequence";
    case SILTBROW_UNKNOWN_ID: return "a stop or a trip is not in its list";
    case SILTBROW_SEQUENCE_REPEATED: return "an earlier line of the trip has the sequence";
    case SILTBROW_BAD_STOP: return "the first or last stop of a trip has no time, or times fall";
    case SILTBROW_HOP_ROOM: return "there is too little room for hops";
    case SILTBROW_SCRATCH_ROOM: return "the scratch has less than 4 bytes for each hop";
    case SILTBROW_TOO_MANY_PATIENTS: return "a vertex has more than 65,535 patients";
    case SILTBROW_BAD_EVENING: return "the gap, the number of arrivals or the last arrival is outside its limits";
    case SILTBROW_BAD_ENTRY: return "an entry of the list names no vertex, one that an earlier entry has or, for parts, a distance above the duration";
    case SILTBROW_OTHER_LIST: return "the courier's list is not that of the tables";
    case SILTBROW_BAD_POINT: return "a coordinate is not finite";
    case SILTBROW_EMPTY_LIST: return "the list is empty";
    case SILTBROW_LISTED_VERTEX: return "an entry of a bought list names no vertex, or one that an earlier entry has";
    case SILTBROW_LISTED_DISTANCE: return "an entry of a bought list has a distance above the duration";
    case SILTBROW_LISTED_RECORD: return "an entry of a bought list names a record that does not give its distance from an earlier entry";
    case SILTBROW_BETTER_OFFER: return "a vertex can be nearer than a bought list says, or is missing there";
    case SILTBROW_BAD_ID_LINE: return "a line of the stops is not an id and a vertex, or one of the trips not an id and a number";
    default: return "there is no such refusal";
    }
}

/* What the place of a refusal counts. */
static inline const char *siltbrow_place_text(uint32_t refusal)
{
    switch (refusal) {
    case SILTBROW_BAD_LENGTH: return "slice: 0 vertices, 1 walks, 2 hops, 3 held, 4 settled or list, 5 parts, 6 coordinates, target, patients or courier's list, 7 report";
    case SILTBROW_BAD_WALK:
    case SILTBROW_WALK_ORDER: return "walk record";
    case SILTBROW_BAD_HOP:
    case SILTBROW_HOP_ORDER:
    case SILTBROW_KNOWN_TRIP: return "hop record";
    case SILTBROW_BAD_VERTEX: return "vertex record";
    case SILTBROW_BAD_QUERY: return "field: 0 record, 1 offset, 2 arrival or departure, 3 duration, 4 speed, 5 boarding time";
    case SILTBROW_HELD_ROOM:
    case SILTBROW_SETTLED_ROOM: return "step";
    case SILTBROW_PART_ROOM: return "step: 0 at the query place, otherwise the entry of the list plus 1";
    case SILTBROW_BAD_ENTRY:
    case SILTBROW_LISTED_VERTEX:
    case SILTBROW_LISTED_DISTANCE:
    case SILTBROW_LISTED_RECORD: return "entry of the list";
    case SILTBROW_OTHER_LIST: return "number of the list";
    case SILTBROW_BETTER_OFFER: return "record, hops behind the walks; 4294967294 the query walk's \"from\", 4294967295 its \"to\"";
    case SILTBROW_BAD_EVENING: return "field: 0 gap, 1 number of arrivals, 2 last arrival";
    case SILTBROW_TOO_MANY_PATIENTS:
    case SILTBROW_BAD_POINT: return "vertex";
    case SILTBROW_BAD_COLUMNS:
    case SILTBROW_BAD_LINE:
    case SILTBROW_UNKNOWN_ID:
    case SILTBROW_SEQUENCE_REPEATED:
    case SILTBROW_BAD_STOP: return "line of the stop times";
    case SILTBROW_BAD_ID_LINE: return "line of the list";
    default: return "nothing";
    }
}

#ifdef __cplusplus
}
#endif

#endif
