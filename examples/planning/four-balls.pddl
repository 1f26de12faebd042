; Bring four balls from the kitchen to the hall.
(define (problem four-balls)
  (:domain gripper)
  (:objects kitchen hall left right one two three four)
  (:init (room kitchen) (room hall) (hand left) (hand right) (ball one) (ball two) (ball three) (ball four)
    (robot-in kitchen) (free left) (free right) (in one kitchen) (in two kitchen) (in three kitchen) (in four kitchen))
  (:goal (and (in one hall) (in two hall) (in three hall) (in four hall))))
