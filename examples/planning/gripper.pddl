; A robot with two hands carries balls from room to room.
(define (domain gripper)
  (:predicates (room ?x) (ball ?x) (hand ?x) (robot-in ?x) (in ?x ?y) (holds ?x ?y) (free ?x))
  (:action move
    :parameters (?from ?to)
    :precondition (and (room ?from) (room ?to) (robot-in ?from))
    :effect (and (robot-in ?to) (not (robot-in ?from))))
  (:action pick
    :parameters (?ball ?room ?hand)
    :precondition (and (ball ?ball) (room ?room) (hand ?hand) (in ?ball ?room) (robot-in ?room) (free ?hand))
    :effect (and (holds ?hand ?ball) (not (in ?ball ?room)) (not (free ?hand))))
  (:action drop
    :parameters (?ball ?room ?hand)
    :precondition (and (ball ?ball) (room ?room) (hand ?hand) (holds ?hand ?ball) (robot-in ?room))
    :effect (and (in ?ball ?room) (free ?hand) (not (holds ?hand ?ball)))))
