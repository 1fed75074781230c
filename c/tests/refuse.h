/* Memory that is refused. */
#ifndef REFUSE_H
#define REFUSE_H

/* The allocation with this number from now on is refused; 0 for none. */
extern long refuse_at;
/* How many allocations were made since it was set to 0. */
extern long allocations;

#endif
