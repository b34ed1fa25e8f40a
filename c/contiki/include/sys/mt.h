/*
 * Threads with stacks of their own, which the process runs by mt_exec until they yield. They may call all that the process may, but for
 * waits.
 */
#ifndef MT_H_
#define MT_H_

#define MT_STATE_READY 1
#define MT_STATE_RUNNING 2
#define MT_STATE_EXITED 5

struct mt_context;

struct mt_thread {
  int state;
  /* Its stack, and where it continues. For the driver only. */
  struct mt_context *context;
};

/* Nothing needs to be done for these two. */
void mt_init(void);
void mt_remove(void);

/* Sets up a thread that begins with function(data). The struct is one that is new or was stopped. */
void mt_start(struct mt_thread *thread, void (*function)(void *), void *data);

/* Runs the thread until it yields or exits. Nothing happens if it has exited. */
void mt_exec(struct mt_thread *thread);

/* In a thread: returns from mt_exec, until the next one. */
void mt_yield(void);

/* In a thread: ends it. So does its function when it returns. */
void mt_exit(void);

/* Frees the stack of a thread that doesn't run. */
void mt_stop(struct mt_thread *thread);

#endif
