@0xbe4c908770107cf6;
# A queue of jobs. Workers take them, and those who submitted them wait for their outputs.

interface Queue {
  submit @0 (job :Text) -> (handle :Handle);
  # Adds a job. It is given up once its handle is dropped, unless a worker has it.

  take @1 () -> (job :Text, task :Task);
  # The oldest job that no worker has, once there is one.
}

interface Handle {
  # A job, as the client has it that submitted it.

  wait @0 () -> (output :Text);
  # The output, once the job is done.
}

interface Task {
  # A job, as the worker has it that took it. If it is dropped before the job is done, another worker gets the job.

  done @0 (output :Text) -> ();
  # The job is done.
}
