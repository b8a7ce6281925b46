#lang racket/base
;; What a translated script stands on: the values, events and threads of a script, by Racket's own events.
;; A run is over once `system-idle-evt` is ready: no thread can go on. A thread that has not ended by then waits.
;;
;; An I-variable is a semaphore that is peeked at, a mailbox is an asynchronous channel of the library; all else is in the core.

(require racket/async-channel racket/list racket/string ffi/unsafe/atomic)
(provide (all-defined-out))

;; Values. Numbers, truth values and texts are Racket's own; unit is the void value.

(struct couple (first second))
(struct object (kind number content))  ; `content` is what Racket has for it
(struct fault (name))
(struct leaving ())

(define (kind) (raise (fault "kind")))
(define (of name value) (if (and (object? value) (eq? (object-kind value) name)) (object-content value) (kind)))

;; What is left to chance: in half of the places no yield, in the others one to four

(define (strew)
  (unless (zero? (random 2))
    (for ([_ (in-range (add1 (random 4)))]) (sleep 0))))

;; A run's threads and lines

(define lines '())
(define ends (hash))  ; by number
(define made (hash))  ; how many objects there are of each kind
(define me (make-parameter #f))

(define-syntax-rule (at-once body ...) (begin (start-atomic) (begin0 (let () body ...) (end-atomic))))

(define (new name content)
  (at-once
   (define number (hash-ref made name 0))
   (set! made (hash-set made name (add1 number)))
   (object name number content)))

(define (set-end! number word) (at-once (set! ends (hash-set ends number word))))

(define (shown value)
  (cond [(number? value) (number->string value)]
        [(boolean? value) (if value "true" "false")]
        [(void? value) "()"]
        [(string? value) (quoted value)]
        [(couple? value) (format "(pair ~a ~a)" (shown (couple-first value)) (shown (couple-second value)))]
        [(object? value) (format "(~a ~a)" (object-kind value) (object-number value))]
        [else "event"]))

(define (quoted text)
  (string-append "\"" (string-replace (string-replace (string-replace text "\\" "\\\\") "\"" "\\\"") "\n" "\\n") "\""))

(define (print-line value)
  (define line (if (string? value) value (shown value)))
  (at-once (set! lines (cons line lines))))

(define (ended body)
  (with-handlers ([fault? (lambda (it) (string-append "fault " (fault-name it)))]
                  [leaving? (lambda (_) "ended")]
                  [exn:fail? (lambda (it) (string-append "fault " (exn-message it)))])
    (body)
    "ended"))

(define (spawn f . values)
  (define number (at-once (begin0 (hash-count ends) (set! ends (hash-set ends (hash-count ends) "waits")))))
  (define content (box #f))
  (define thread-value (object 'thread number content))
  (define begun (make-semaphore 0))
  (set-box! content
            (thread (lambda ()
                      (semaphore-wait begun)
                      (set-end! number (parameterize ([me thread-value]) (ended (lambda () (strew) (apply f values))))))))
  (semaphore-post begun)
  thread-value)

(define (self) (me))
(define (leave) (raise (leaving)))

;; Expressions

(define (within number) (if (<= (- (expt 2 63)) number (sub1 (expt 2 63))) number (raise (fault "overflow"))))
(define ((over-numbers operator) a b) (if (and (number? a) (number? b)) (within (operator a b)) (kind)))
(define add (over-numbers +))
(define subtract (over-numbers -))
(define multiply (over-numbers *))
(define (less a b) (if (and (number? a) (number? b)) (< a b) (kind)))
(define (negated a) (if (boolean? a) (not a) (kind)))
(define (is-true a) (if (boolean? a) a (kind)))
(define (first-of a) (if (couple? a) (couple-first a) (kind)))
(define (second-of a) (if (couple? a) (couple-second a) (kind)))

(define (same a b)
  (cond [(and (couple? a) (couple? b)) (and (same (couple-first a) (couple-first b)) (same (couple-second a) (couple-second b)))]
        [(or (evt? a) (evt? b)) (error "events can't be compared")]
        [else (equal? (shown a) (shown b))]))

;; Events

(define (event value) (if (and (evt? value) (not (object? value))) value (kind)))
(define (wait value) (sync (event value)))
(define never never-evt)
(define (always value) (wrap-evt always-evt (lambda (_) value)))
(define (choose . events) (apply choice-evt (map event events)))
(define (wrap value f . values) (wrap-evt (event value) (lambda (x) (strew) (apply f (append values (list x))))))
(define (guard f . values) (guard-evt (lambda () (strew) (event (apply f values)))))
(define (withnack f . values)
  (nack-guard-evt (lambda (nack) (strew) (event (apply f (append values (list (done nack))))))))

(define (done evt) (wrap-evt evt void))
(define (send channel value) (done (channel-put-evt (of 'chan channel) value)))
(define (recv channel) (wrap-evt (of 'chan channel) values))
(define (mailrecv mailbox) (wrap-evt (of 'mailbox mailbox) values))
(define (join thread) (done (thread-dead-evt (unbox (of 'thread thread)))))

;; Objects. An I-variable has a semaphore that lets the first put pass, a box, and a semaphore that is posted once the box is full.

(struct ivar (permit value full))

(define (new-chan) (new 'chan (make-channel)))
(define (new-mailbox) (new 'mailbox (make-async-channel)))
(define (new-ivar) (new 'ivar (ivar (make-semaphore 1) (box #f) (make-semaphore 0))))

(define (mail mailbox value) (async-channel-put (of 'mailbox mailbox) value))
(define (iput variable value)
  (define content (of 'ivar variable))
  (unless (semaphore-try-wait? (ivar-permit content)) (raise (fault "put")))
  (set-box! (ivar-value content) value)
  (semaphore-post (ivar-full content)))
(define (iget variable)
  (define content (of 'ivar variable))
  (wrap-evt (semaphore-peek-evt (ivar-full content)) (lambda (_) (unbox (ivar-value content)))))

;; Runs. Each is told by one line of JSON.

(define (told words) (format "[~a]" (string-join (map quoted words) ",")))

(define (run main)
  (set! lines '())
  (set! ends (hash))
  (set! made (hash))
  (define custodian (make-custodian))
  (parameterize ([current-custodian custodian]) (spawn main))
  (sync (system-idle-evt))
  (printf "{\"lines\":~a,\"threads\":~a}\n" (told (reverse lines)) (told (for/list ([n (in-range (hash-count ends))]) (hash-ref ends n))))
  (custodian-shutdown-all custodian))

(define (run-often times seed main)
  (random-seed seed)
  (for ([_ (in-range times)]) (run main)))
