;;; pide-mode-keystrokes.el --- Times a keystroke in 10,000 lemmas  -*- lexical-binding: t; -*-

;;; Commentary:

;; emacs -Q --batch -L . -l pide-mode-keystrokes -f pide-time-keystrokes
;;
;; A letter is typed into the proof of one lemma and taken away again.  Told is the median of
;; twenty letters, in milliseconds: from the key until the error is underlined, `pide-delay' and
;; all.

;;; Code:

(require 'pide-mode)
(require 'seq)

(defun pide-time--wait ()
  "Wait until all is answered."
  (while (or pide--timer (> pide--awaited 0))
    (accept-process-output nil 0.001)))

(defun pide-time--has-error ()
  "Whether an error is underlined."
  (seq-find (lambda (overlay) (eq (overlay-get overlay 'pide-kind) 'error))
            (overlays-in (point-min) (point-max))))

(defun pide-time--key (number)
  "The milliseconds from a key in lemma NUMBER until its error is underlined."
  (goto-char (point-min))
  (forward-line (1+ number))
  (backward-char 2)
  (let ((begin (float-time)))
    (setq last-command-event ?x)
    (call-interactively #'self-insert-command)
    (while (not (pide-time--has-error))
      (accept-process-output nil 0.001))
    (prog1 (* 1000 (- (float-time) begin))
      (pide-time--wait)
      (delete-char -1)
      (pide-time--wait))))

(defun pide-time--median (number)
  "The median of twenty keys in lemma NUMBER."
  (set-window-start (selected-window)
                    (save-excursion
                      (goto-char (point-min))
                      (forward-line (- number 10))
                      (point)))
  (pide--schedule)
  (pide-time--wait)
  (nth 10 (sort (mapcar (lambda (_) (pide-time--key number)) (number-sequence 1 20)) #'<)))

(defun pide-time-keystrokes ()
  "Print the table."
  (let ((file (make-temp-file "Big" nil ".thy" "theory Big begin\n")))
    (with-temp-buffer
      (insert "theory Big begin\n")
      (dotimes (number 10000)
        (insert (format "lemma l%d: \"P --> P\" by (impI h h)\n" (1+ number))))
      (insert "end\n")
      (write-region (point-min) (point-max) file nil 'quiet))
    (find-file file)
    (pide-time--wait)
    (princ "lemma | checked | Emacs, ms\n")
    (dolist (number '(20 5000 9980))
      (princ (format "%d | visible | %.0f\n" number (pide-time--median number))))
    (pide-check-whole)
    (pide-time--wait)
    (dolist (number '(20 9980))
      (princ (format "%d | all | %.0f\n" number (pide-time--median number))))
    (set-buffer-modified-p nil)
    (kill-buffer)
    (delete-file file)))

(provide 'pide-mode-keystrokes)
;;; pide-mode-keystrokes.el ends here
