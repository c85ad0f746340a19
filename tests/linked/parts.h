/*
 * What no row of rows.txt says: of the calls that read, of those on URIs that were parsed before, of those that write
 * values, and of those on digits and times; and large sizes.
 */
#ifndef PARTS_H
#define PARTS_H

#include <stdbool.h>
#include <stddef.h>

/* Each makes its calls, and says whether all of them returned what was expected; it names those that did not. */
bool null_input(void);
bool null_output(void);
bool no_profile(void);
bool deep(void);
bool identifiers(void);
bool texts_differ(void);
bool takes_little(void);
bool parsed_rsync_uris(void);
bool parsed_https_uris(void);
bool other_rsync_parts(void);
bool other_https_parts(void);
bool written_values(void);
bool refused_writing(void);
bool digits(void);
bool times_and_periods(void);
bool written_extensions(void);
bool sizes(void);

#endif
