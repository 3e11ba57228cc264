;;; pide-mode.el --- Theories that are checked as one types  -*- lexical-binding: t; -*-

;; Version: 0.2
;; Package-Requires: ((emacs "27.1"))
;; Keywords: languages, tools

;;; Commentary:

;; A buffer of a theory (a file NAME.thy) is kept in step with the program `pide' by edits.  What
;; the windows show is checked: errors are underlined, text that waits is shaded, proved commands
;; are marked at the left, and the state at point stands in a window beside the buffer.  Imports
;; are opened from their files.
;;
;; Nothing of this is proved; it is tested.  docs/CLIENTS.md tells how it is installed,
;; docs/FORMATS.md what stands on the wire.  Places of the program count characters from 0, those
;; of Emacs from 1.

;;; Code:

(require 'cl-lib)
(require 'flymake)
(require 'seq)
(require 'subr-x)
(require 'xref)

(defgroup pide nil
  "Theories that are checked as one types."
  :group 'languages)

(defcustom pide-program nil
  "The program's path.
Nil stands for that of the environment's PIDE, else `pide' of the checkout in
which this file stands, else `pide' on the PATH."
  :type '(choice (const nil) file))

(defcustom pide-folders nil
  "Folders where imports are looked for behind that of the file that imports."
  :type '(repeat directory))

(defcustom pide-delay 0.02
  "Seconds from a change of the text or of the view until it is sent."
  :type 'number)

(defcustom pide-shows-state t
  "Whether the window of the state is shown when the first theory is visited."
  :type 'boolean)

(defcustom pide-shows-all-errors nil
  "Whether errors that follow from others are underlined as these are."
  :type 'boolean)

(defface pide-error '((t :underline (:style wave :color "red") :inherit error))
  "What has an error.")

(defface pide-behind '((t :underline (:style wave :color "gray")))
  "What has an error that follows from another one.")

(defface pide-pending
  '((((background dark)) :background "gray25") (t :background "gray90"))
  "What isn't checked yet.")

(defface pide-proved '((t :inherit success))
  "The mark of a command that is proved.")

(defvar pide--process nil "The running program, or nil.")
(defvar pide--version 0 "The newest version that was asked for.")
(defvar pide--awaited 0 "How many replies are still to come, reports aside.")
(defvar pide--closed nil "Names of nodes that are to be closed.")
(defvar pide--timer nil "The timer of the next step, or nil.")
(defvar pide--is-due nil "Whether a step waits until all is answered.")
(defvar pide--trouble nil "What is wrong with the program, in a word; nil where it runs.")
(defvar pide--source (or load-file-name buffer-file-name) "The file of this code.")
(defvar pide--has-shown-state nil "Whether the window of the state was shown once.")

(defvar-local pide--node nil "The name of the buffer's node.")
(defvar-local pide--is-open nil "Whether the program has the node.")
(defvar-local pide--shadow nil "A buffer with the text that the program has.")
(defvar-local pide--markup nil "A buffer with the reports of the last snapshot, as bytes.")
(defvar-local pide--front nil
  "How many characters at the beginning are as the program has them; nil for all.")
(defvar-local pide--back nil
  "How many characters at the end are as the program has them; nil for all.")
(defvar-local pide--told-whole nil
  "Whether the reports tell of all of the text, and nothing is pending.")
(defvar-local pide--missing nil "What is missing at the text's end, or nil.")
(defvar-local pide--told-size 0
  "How long the text was of which the reports tell.")
(defvar-local pide--told-front nil
  "How many characters at its beginning are as they were then; nil for all.")
(defvar-local pide--told-back nil
  "How many characters at its end are as they were then; nil for all.")
(defvar-local pide--seen nil "The perspective that the program has.")
(defvar-local pide--asked-end 0
  "Up to which place the program was told to check; t for all.")
(defvar-local pide--is-required nil
  "Whether all of the buffer is to be checked, whatever is visible.")
(defvar-local pide--errors nil
  "The errors of the last snapshot, in order: of each its start, its stop, its
text, how many follow from it, and whether it follows from another one.")
(defvar-local pide--flymake nil
  "What takes diagnostics, where `flymake-mode' has asked for them.")
(defvar-local pide--anew 0
  "The place from which on the version being checked makes commands anew.")

(defconst pide--commands
  '("theory" "end" "axiom" "lemma" "load" "proof" "fix" "assume" "have" "show" "next" "qed" "by")
  "The words that begin commands.")

(defconst pide--named "\\_<\\(?:axiom\\|lemma\\|theory\\)\\_>[ \t\r\n]+\\([A-Za-z][A-Za-z0-9_']*\\)"
  "What gives a name in a theory: its header, an axiom, a lemma.")

;;;; The program

(defun pide--named-program ()
  "The program that `pide-program' or PIDE names, or nil.
Where it isn't there that is an error."
  (when-let ((named (or pide-program (getenv "PIDE"))))
    (or (executable-find named)
        (user-error "The program %s isn't there, or can't be run: set `pide-program' or PIDE"
                    named))))

(defun pide--built-program (launcher)
  "The program that the checkout's LAUNCHER has built from its sources.
To prove it takes more than an hour, so where that isn't done it is an error."
  (with-temp-buffer
    (if (eql 0 (call-process launcher nil '(t nil) nil "--which"))
        (string-trim (buffer-string))
      (user-error "The program isn't built from these sources: %s --prove builds it" launcher))))

(defun pide--find-program ()
  "The program's path, or an error where there is none."
  (let* ((top (and pide--source (expand-file-name "../.." (file-name-directory pide--source))))
         (here (and top (expand-file-name "pide" top))))
    (or (pide--named-program)
        (and here
             (file-exists-p (expand-file-name "crates.txt" top))
             (file-executable-p here)
             (pide--built-program here))
        (executable-find "pide")
        (user-error "No program: set `pide-program' or PIDE, or have pide on the PATH"))))

(defun pide--start ()
  "Start the program, or tell why that can't be done."
  (condition-case fault
      (pide--start-program (pide--find-program))
    (error
     (pide--tell "no program"
                 (format "%s; then C-c C-r starts it" (error-message-string fault))))))

(defun pide--tell (word text)
  "Tell that there is trouble with the program: a WORD, and a TEXT on what to do."
  (setq pide--trouble (cons word text))
  (message "pide: %s" text)
  (mapc #'pide--show-trouble (pide--buffers)))

(defun pide--show-trouble (buffer)
  "Tell in the mode line of BUFFER how many errors there are, or of the trouble."
  (with-current-buffer buffer
    (setq mode-line-process
          (if pide--trouble
              (list (propertize (format ":%s, C-c C-r" (car pide--trouble))
                                'face 'warning 'help-echo (cdr pide--trouble)))
            (pide--count-words)))
    (force-mode-line-update)))

(defun pide--count-words ()
  "How many errors the current buffer has, and how many follow from these."
  (let* ((firsts (seq-count (lambda (error) (not (nth 4 error))) pide--errors))
         (others (- (length pide--errors) firsts)))
    (cond ((= firsts 0) "")
          ((= others 0) (format ":%d error%s" firsts (if (= firsts 1) "" "s")))
          (t (format ":%d error%s, %d behind" firsts (if (= firsts 1) "" "s") others)))))

(defun pide--start-program (program)
  "Start the PROGRAM."
  (let ((replies (generate-new-buffer " *pide-replies*"))
        (process-adaptive-read-buffering nil))
    (with-current-buffer replies
      (set-buffer-multibyte nil)
      (setq case-fold-search nil)
      (buffer-disable-undo))
    (setq pide--version 0
          pide--awaited 0
          pide--is-due nil
          pide--closed nil
          pide--process (make-process :name "pide"
                                      :buffer replies
                                      :command (list program "serve")
                                      :coding 'no-conversion
                                      :connection-type 'pipe
                                      :noquery t
                                      :stderr (get-buffer-create " *pide-stderr*")
                                      :filter #'pide--filter
                                      :sentinel #'pide--sentinel))
    (when-let ((errors (get-buffer-process " *pide-stderr*")))
      (set-process-query-on-exit-flag errors nil)
      (set-process-sentinel errors #'ignore))
    (setq pide--trouble nil)
    (mapc #'pide--show-trouble (pide--buffers))))

(defun pide--sentinel (process event)
  "Note that the PROCESS has ended, as EVENT says."
  (unless (process-live-p process)
    (kill-buffer (process-buffer process))
    (when (eq process pide--process)
      (setq pide--process nil)
      (mapc #'pide--forget (pide--buffers))
      (pide--tell "ended" (format "the program has ended (%s); C-c C-r starts it again"
                                  (string-trim event))))))

(defun pide--stop ()
  "End the program, by closing its input."
  (when pide--process
    (let ((process pide--process))
      (setq pide--process nil)
      (when (process-live-p process)
        (set-process-filter process t)
        (process-send-eof process)
        (delete-process process))))
  (mapc #'pide--forget (pide--buffers)))

(defun pide-restart ()
  "Start the program anew, and send it all theories."
  (interactive)
  (pide--stop)
  (pide--start)
  (pide--schedule))

;;;; Messages

(defun pide--part (body)
  "The element that holds BODY as a part of a value."
  (concat "\5\6:\5" body "\5\6\5"))

(defun pide--list (bodies)
  "The list of the BODIES."
  (mapconcat #'pide--part bodies ""))

(defun pide--edit (kind start text)
  "The edit of this KIND (0 puts in, 1 removes) of TEXT at START."
  (format "\5\6%d\0060=%d\5%s\5\6\5" kind start (pide--plain text)))

(defun pide--plain (text)
  "TEXT with a replacement for each character that can't be sent."
  (replace-regexp-in-string "[^\0-\4\7-\uD7FF\uE000-\U0010FFFF]" "\uFFFD" text t t))

(defun pide--send (&rest chunks)
  "Send the message of these CHUNKS; one reply to it is awaited."
  (let ((chunks (mapcar (lambda (chunk) (encode-coding-string chunk 'utf-8-unix t)) chunks)))
    (setq pide--awaited (1+ pide--awaited))
    (process-send-string
     pide--process
     (concat (mapconcat (lambda (chunk) (number-to-string (length chunk))) chunks ",")
             "\n"
             (apply #'concat chunks)))))

(defun pide--filter (process bytes)
  "Take in BYTES that the PROCESS has written."
  (when (buffer-live-p (process-buffer process))
    (let ((trouble (catch 'pide-trouble
                     (with-current-buffer (process-buffer process)
                       (goto-char (point-max))
                       (insert bytes)
                       (pide--take-messages)
                       nil))))
      (cond (trouble (apply (car trouble) (cdr trouble)))
            ((and pide--is-due (= pide--awaited 0)) (pide--schedule-in 0))))))

(defun pide--take-messages ()
  "Take in the whole messages of the current buffer, and leave what is behind them."
  (goto-char (point-min))
  (while (pide--take-message))
  (delete-region (point-min) (point))
  (unless (looking-at "[0-9,]\\{0,200\\}\\(\\'\\|\n\\)")
    (throw 'pide-trouble (list #'pide--take-nonsense))))

(defun pide--take-message ()
  "Take in the message at point, and go behind it; nil where it isn't whole."
  (when (looking-at "\\([0-9,]+\\)\n")
    (let* ((start (match-end 0))
           (lengths (mapcar #'string-to-number (split-string (match-string 1) ",")))
           (end (+ start (apply #'+ lengths)))
           chunks)
      (when (<= end (point-max))
        (dolist (length lengths)
          (push (cons start (setq start (+ start length))) chunks))
        (pide--take-reply (nreverse chunks))
        (goto-char end)))))

(defun pide--chunk (chunk)
  "The bytes of a CHUNK, told by its places."
  (buffer-substring-no-properties (car chunk) (cdr chunk)))

(defun pide--take-reply (chunks)
  "Do what the reply of these CHUNKS of the current buffer asks for."
  (let ((word (pide--chunk (car chunks))))
    (unless (member word '("report" "dropped"))
      (setq pide--awaited (1- pide--awaited)))
    (cond ((< pide--awaited 0) (throw 'pide-trouble (list #'pide--take-nonsense)))
          ((and (equal word "assign") (nth 2 chunks)) (pide--take-assignment (nth 2 chunks)))
          ((and (equal word "markup") (nth 4 chunks)) (pide--take-markup chunks))
          ((and (equal word "refused") (nth 1 chunks))
           (throw 'pide-trouble
                  (list #'pide--take-refusal (string-to-number (pide--chunk (nth 1 chunks))))))
          ((not (member word '("report" "dropped" "settled" "removed")))
           (throw 'pide-trouble (list #'pide--take-nonsense))))))

(defconst pide--refusals
  '(UnknownFunction ArgumentCount BadUtf8 BadYxml BadData VersionNotHigher UnknownVersion
    TipVersion NodeTwice UnknownNode EditOutOfRange RemoveDiffers PerspectiveOutOfRange
    UnknownExecution Limit NothingToStep StepHeld ProtocolFixed BlobTwice UnknownBlob)
  "Why a message isn't served, by number from 1, as docs/FORMATS.md has it.")

(defun pide--take-refusal (number)
  "Tell by its name that the program refuses a message, by this NUMBER, and end it."
  (let ((name (or (nth (1- number) pide--refusals) number)))
    (pide--stop)
    (pide--tell (format "refused %s" name)
                (format "the program refuses what it is sent: %s (%d); C-c C-r sends all anew%s"
                        name number
                        (if (eq name 'Limit) ", once there is less text or fewer theories" "")))))

(defun pide--take-nonsense ()
  "Tell that what the program writes is no reply, and end it."
  (pide--stop)
  (pide--tell "nonsense" (concat "the program answers nonsense: is `pide-program' the right one? "
                                 "C-c C-r starts it again")))

;;;; Buffers

(defun pide--buffers ()
  "All buffers that are nodes."
  (seq-filter (lambda (buffer) (buffer-local-value 'pide--node buffer)) (buffer-list)))

(defun pide--buffer-of (node)
  "The buffer of the NODE, or nil."
  (seq-find (lambda (buffer) (equal node (buffer-local-value 'pide--node buffer))) (buffer-list)))

(defun pide--hidden (kind)
  "A hidden buffer of this KIND for the current one."
  (let ((buffer (generate-new-buffer (format " *pide-%s %s*" kind pide--node))))
    (with-current-buffer buffer (buffer-disable-undo))
    buffer))

(defun pide--attach ()
  "Make the current buffer a node."
  (let ((node (pide--name)))
    (if (pide--buffer-of node)
        (message "pide: %s is the theory %s already, so this one isn't checked"
                 (pide--buffer-of node) node)
      (setq pide--node node
            pide--shadow (pide--hidden "text")
            pide--markup (pide--hidden "markup")
            pide--front 0
            pide--back 0)
      (with-current-buffer pide--markup
        (set-buffer-multibyte nil)
        (setq case-fold-search nil
              pide--markup (current-buffer)))
      (add-hook 'after-change-functions #'pide--after-change nil t)
      (add-hook 'post-command-hook #'pide--after-command nil t)
      (add-hook 'window-scroll-functions #'pide--schedule nil t)
      (add-hook 'kill-buffer-hook #'pide--detach nil t)
      (add-hook 'change-major-mode-hook #'pide--detach nil t)
      (add-hook 'window-configuration-change-hook #'pide--schedule)
      (unless (process-live-p pide--process)
        (pide--start))
      (pide--show-trouble (current-buffer))
      (pide--schedule))))

(defun pide--detach ()
  "Make the current buffer no node any more."
  (when pide--node
    (when pide--is-open
      (push pide--node pide--closed))
    (pide--clear)
    (kill-buffer pide--shadow)
    (kill-buffer pide--markup)
    (setq pide--node nil)
    (remove-hook 'after-change-functions #'pide--after-change t)
    (if (pide--buffers) (pide--schedule) (pide--stop))))

(defun pide--forget (buffer)
  "Take it that the program has nothing of BUFFER."
  (with-current-buffer buffer
    (setq pide--is-open nil
          pide--seen nil
          pide--front 0
          pide--back 0
          pide--told-size 0
          pide--told-front nil
          pide--told-back nil
          pide--told-whole nil
          pide--missing nil
          pide--errors nil)
    (pide--clear)
    (dolist (hidden (list pide--shadow pide--markup))
      (with-current-buffer hidden (erase-buffer)))))

;;;; Headers and imports

(defun pide--next-word ()
  "Take the name, string or sign behind point, blanks and comments skipped.
Nil where there is none."
  (forward-comment (buffer-size))
  (when (looking-at "[A-Za-z][A-Za-z0-9_'.]*\\|\"\\(?:\\\\.\\|[^\"\\]\\)*\"\\|=")
    (goto-char (match-end 0))
    (match-string-no-properties 0)))

(defun pide--read-header ()
  "The words of the buffer's header before its begin, behind where it ends; or nil."
  (save-excursion
    (save-restriction
      (widen)
      (goto-char (point-min))
      (let (words word)
        (while (and (setq word (pide--next-word)) (not (equal word "begin")))
          (push word words))
        (setq words (nreverse words))
        (and word (equal (car words) "theory") (cons (point) words))))))

(defun pide--header ()
  "The words of the buffer's header before its begin; nil where it has none."
  (cdr (pide--read-header)))

(defun pide--is-name (text)
  "Whether a node may be called TEXT."
  (string-match-p "\\`[A-Za-z][A-Za-z0-9_']\\{0,63\\}\\'" text))

(defun pide--name ()
  "The name for the buffer's node: its header's, else its file's, else Scratch."
  (seq-find #'pide--is-name
            (delq nil (list (nth 1 (pide--header))
                            (and buffer-file-name (file-name-base buffer-file-name))
                            "Scratch"))))

(defun pide--imports ()
  "The names that the current buffer's header imports."
  (let ((words (nthcdr 2 (pide--header))))
    (when (equal (car words) "imports")
      (seq-filter #'pide--is-name
                  (seq-take-while (lambda (word) (not (equal word "keywords"))) (cdr words))))))

(defun pide--open-imports (buffer)
  "Visit the files of what BUFFER imports and no buffer is."
  (with-current-buffer buffer
    (dolist (name (and pide--front (pide--imports)))
      (let ((file (seq-find #'file-readable-p
                            (mapcar (lambda (folder) (expand-file-name (concat name ".thy") folder))
                                    (cons default-directory pide-folders)))))
        (when (and file (not (pide--buffer-of name)))
          (with-current-buffer (find-file-noselect file)
            (unless (derived-mode-p 'pide-mode) (pide-mode))
            (when pide--node (pide--open-imports (current-buffer)))))))))

;;;; Edits and what is visible

(defun pide--after-change (begin end _length)
  "Note that the text from BEGIN to END is another one."
  (let ((front (1- begin)) (back (- (1+ (buffer-size)) end)))
    (setq pide--front (min front (or pide--front front))
          pide--back (min back (or pide--back back))
          pide--told-front (min front (or pide--told-front front))
          pide--told-back (min back (or pide--told-back back))))
  (pide--schedule))

(defun pide--text (buffer begin end)
  "The text of BUFFER from place BEGIN to END, whatever it is narrowed to."
  (with-current-buffer buffer
    (save-restriction
      (widen)
      (buffer-substring-no-properties (1+ begin) (1+ end)))))

(defun pide--edits ()
  "The edits that make the program's text the buffer's, which then counts as sent."
  (when pide--front
    (let* ((front pide--front)
           (old (pide--text pide--shadow front (- (buffer-size pide--shadow) pide--back)))
           (new (pide--text (current-buffer) front (- (buffer-size) pide--back))))
      (setq pide--front nil pide--back nil)
      (with-current-buffer pide--shadow
        (delete-region (1+ front) (+ 1 front (length old)))
        (goto-char (1+ front))
        (insert new))
      (unless (equal old new)
        (nconc (unless (string-empty-p old) (list (pide--edit 1 front old)))
               (unless (string-empty-p new) (list (pide--edit 0 front new))))))))

(defun pide--visible ()
  "What windows show of the buffer: a list of places where it begins and ends.
Lines that are longer than a window is wide count once, so it may be more."
  (save-excursion
    (save-restriction
      (widen)
      (mapcar (lambda (window)
                (goto-char (window-start window))
                (cons (1- (line-beginning-position))
                      (progn (forward-line (window-height window)) (1- (point)))))
              (get-buffer-window-list nil nil t)))))

(defun pide--perspective (visible)
  "The perspective that shows what is VISIBLE of the current buffer."
  (let ((ranges (mapcar (lambda (range)
                          (concat (pide--part (number-to-string (car range)))
                                  (pide--part (number-to-string (cdr range)))))
                        visible)))
    (concat (pide--part (if pide--is-required "1" "0")) (pide--part (pide--list ranges)))))

(defun pide--was-all-wanted ()
  "Whether the program was told to check all that is written in the buffer."
  (or (equal pide--asked-end t)
      (>= pide--asked-end (1- (pide--end-position)))))

(defun pide--item ()
  "What an update has to tell of the current buffer, or nil."
  (let* ((front pide--front)
         (edits (pide--edits))
         (visible (pide--visible))
         (seen (pide--perspective visible))
         (is-seen (equal seen pide--seen)))
    (setq pide--anew (cond (edits (pide--command-at (pide--place (1+ front))))
                           (is-seen 0)
                           (t (pide--reports-end))))
    (unless (or is-seen edits)
      (pide--render nil))
    (unless (and pide--is-open is-seen (null edits))
      (setq pide--is-open t
            pide--seen seen
            pide--asked-end (or pide--is-required (apply #'max 0 (mapcar #'cdr visible))))
      (concat (pide--part pide--node)
              (pide--part (concat "\5\0060\5"
                                  (pide--part (pide--list edits))
                                  (pide--part (pide--part seen))
                                  "\5\6\5"))))))

(defun pide--closing (node)
  "What an update tells of a NODE that goes."
  (concat (pide--part node) (pide--part "\5\0061\5\5\6\5")))

(defun pide--items ()
  "What the next update tells; nodes go before others come."
  (if pide--closed
      (prog1 (mapcar #'pide--closing (delete-dups pide--closed))
        (setq pide--closed nil
              pide--is-due t))
    (mapc #'pide--open-imports (pide--buffers))
    (delq nil (mapcar (lambda (buffer) (with-current-buffer buffer (pide--item)))
                      (pide--buffers)))))

(defun pide--schedule (&rest _)
  "Have the program told soon of what has changed."
  (pide--schedule-in pide-delay))

(defun pide--schedule-in (seconds)
  "Have the program told of what has changed in so many SECONDS, or before."
  (when (and pide--process (not pide--timer))
    (setq pide--timer (run-with-timer seconds nil #'pide--step))))

(defun pide--step ()
  "Tell the program what has changed, and ask what it knows then.
Nothing is reported before all is answered that was asked before."
  (setq pide--timer nil
        pide--is-due (> pide--awaited 0))
  (when (and (process-live-p pide--process) (not pide--is-due))
    (when-let ((items (pide--items)))
      (setq pide--version (1+ pide--version))
      (let ((version (number-to-string pide--version)))
        (pide--send "Session.update" version (pide--list items))
        (when (> pide--version 1)
          (pide--send "Session.remove_versions"
                      (pide--part (number-to-string (1- pide--version)))))
        (pide--send "Session.settle" version)
        (dolist (buffer (pide--buffers))
          (with-current-buffer buffer
            (when (and pide--is-open (get-buffer-window-list nil nil t))
              (pide--send "Session.snapshot" version pide--node ""))))))))

;;;; Reports, which stand in a hidden buffer as the program wrote them, their starts rising

(defconst pide--report
  (concat "\5\6\\([^\5\6]+\\)\6offset=\\([0-9]+\\)\6end_offset=\\([0-9]+\\)"
          "\\([^\5]*\\)\5\\([^\5]*\\)\5\6\5")
  "A report: its kind, where it starts and stops, its properties, its text.")

(defun pide--number (group)
  "The number that the GROUP of the last match is."
  (string-to-number (match-string group)))

(defun pide--seek (place)
  "Go to the first report of the current buffer that starts at PLACE or behind it."
  (let ((low (point-min)) (high (point-max)))
    (while (< low high)
      (let ((middle (/ (+ low high) 2)))
        (goto-char middle)
        (if (and (re-search-forward pide--report nil t)
                 (< (match-beginning 0) high)
                 (< (pide--number 2) place))
            (setq low (match-end 0))
          (setq high middle))))
    (goto-char low)))

(defun pide--reports (begin end)
  "What is reported of the current buffer and starts at a place from BEGIN to END.
Each is a list: its kind, the places where it starts and stops, its text, and
its properties by their names."
  (with-current-buffer pide--markup
    (pide--seek begin)
    (let (reports)
      (while (and (looking-at pide--report) (<= (pide--number 2) end))
        (push (pide--matched-report) reports)
        (goto-char (pide--report-end)))
      (nreverse reports))))

(defun pide--report-end ()
  "The position behind the report at point."
  (looking-at pide--report)
  (match-end 0))

(defun pide--matched-report ()
  "The report that was matched last, as a list."
  (list (match-string 1) (pide--number 2) (pide--number 3)
        (decode-coding-string (match-string 5) 'utf-8-unix)
        (mapcar (lambda (property)
                  (let ((equals (string-match "=" property)))
                    (cons (substring property 0 equals) (substring property (1+ equals)))))
                (split-string (match-string 4) "\6" t))))

(defun pide--property (name report)
  "The property of this NAME of a REPORT, or nil."
  (cdr (assoc name (nth 4 report))))

(defun pide--command-at (place)
  "Where the last command starts that starts at PLACE or before; else 0."
  (with-current-buffer pide--markup
    (pide--seek (1+ place))
    (if (and (search-backward "\5\6command\6" nil t) (looking-at pide--report))
        (pide--number 2)
      0)))

(defun pide--reports-end ()
  "Where the last command ends of which something is reported."
  (apply #'max 0 (mapcar (lambda (report) (nth 2 report))
                         (pide--reports (pide--command-at pide--told-size) pide--told-size))))

;;;; What is shown

(defun pide--position (place &optional is-stop)
  "The position now of the PLACE in the text of which the reports tell.
Where that text is gone it is where the gap begins, or ends if IS-STOP."
  (let ((front pide--told-front) (back pide--told-back))
    (1+ (cond ((or (null front) (<= place front)) place)
              ((>= place (- pide--told-size back)) (+ place (- (buffer-size) pide--told-size)))
              (is-stop (- (buffer-size) back))
              (t front)))))

(defun pide--place (position)
  "The place in the text of which the reports tell of what is at POSITION now."
  (let ((place (1- position)) (front pide--told-front) (back pide--told-back))
    (cond ((or (null front) (<= place front)) place)
          ((>= place (- (buffer-size) back)) (- place (- (buffer-size) pide--told-size)))
          (t front))))

(defun pide--clear ()
  "Take all marks off the current buffer."
  (save-restriction
    (widen)
    (remove-overlays (point-min) (point-max) 'pide t)))

(defun pide--overlay (begin end &rest properties)
  "Put an overlay with these PROPERTIES on the text from position BEGIN to END."
  (let ((overlay (make-overlay begin end)))
    (overlay-put overlay 'pide t)
    (while properties
      (overlay-put overlay (pop properties) (pop properties)))))

(when (fboundp 'define-fringe-bitmap)
  (define-fringe-bitmap 'pide-proved [0 1 2 4 136 80 32 0]))

(defun pide--mark ()
  "What marks a line with a proof, in the fringe, or the margin without one."
  (propertize " " 'display
              (if (display-graphic-p)
                  '(left-fringe pide-proved pide-proved)
                (list '(margin left-margin) (propertize "+" 'face 'pide-proved)))))

(defun pide--show-report (kind start stop text &rest _)
  "Show a report of this KIND and TEXT from place START to STOP."
  (let ((begin (pide--position start)) (end (pide--position stop t)))
    (pcase kind
      ("error" (pide--show-error begin end start text))
      ("proved"
       (let ((line (save-excursion (goto-char begin) (line-beginning-position))))
         (pide--overlay line line 'pide-kind 'proved 'before-string (pide--mark)))))))

(defun pide--show-error (begin end start text)
  "Underline the error of this TEXT from position BEGIN to END; it starts at START."
  (let ((follows (and (not pide-shows-all-errors) (nth 4 (assq start pide--errors)))))
    (pide--overlay begin end
                   'pide-kind (if follows 'behind 'error)
                   'face (if follows 'pide-behind 'pide-error)
                   'help-echo (pide--explained text start))))

(defun pide--explained (text start)
  "The TEXT of an error that starts at START, and what else is known of it."
  (let* ((header (pide--header))
         (behind (or (nth 3 (assq start pide--errors)) 0))
         (circle (and (string-prefix-p "bad import " text)
                      (pide--circle pide--node (substring text (length "bad import "))))))
    (concat text
            (and circle (format ": import cycle: %s" (string-join circle " -> ")))
            (and (equal text "theory name differs")
                 (format ": the header says %s, and it is checked as %s; M-x pide-mode takes the header's"
                         (nth 1 header) pide--node))
            (and (> behind 0)
                 (format ", and %d error%s behind it" behind (if (= behind 1) "" "s"))))))

(defun pide--circle (node import)
  "A shortest circle of imports from NODE by IMPORT back to it, as names; or nil."
  (let ((ways (list (list import node))) (seen (list import)) found)
    (while (and ways (not found))
      (let* ((way (pop ways)) (buffer (pide--buffer-of (car way))))
        (if (equal (car way) node)
            (setq found (reverse way))
          (dolist (other (and buffer (with-current-buffer buffer (pide--imports))))
            (unless (member other seen)
              (push other seen)
              (setq ways (append ways (list (cons other way)))))))))
    found))

(defun pide--shade (place)
  "Shade the text from PLACE to the end of what is wanted, which is to be checked."
  (let ((begin (pide--position place))
        (end (if pide--is-required
                 (1+ (buffer-size))
               (1+ (apply #'max 0 (mapcar #'cdr (pide--visible)))))))
    (when (< begin end)
      (pide--overlay begin end 'pide-kind 'pending 'face 'pide-pending 'priority -10))))

(defun pide--error-count ()
  "How many errors are reported of the current buffer."
  (length pide--errors))

;;;; Errors, of which some follow from others: where a command is refused, those behind it that need
;;;; it are `not allowed here' too, until one is accepted

(defun pide--read-errors ()
  "The errors that are reported of the current buffer, as `pide--errors' has them."
  (let (errors first previous)
    (with-current-buffer pide--markup
      (goto-char (point-min))
      (while (search-forward "\5\6error\6" nil t)
        (goto-char (match-beginning 0))
        (let* ((end (pide--report-end))
               (report (pide--matched-report))
               (is-refused (equal (nth 3 report) "not allowed here"))
               (follows (and is-refused previous (pide--is-next previous report)
                             (pide--is-refused previous) t))
               (error (list (nth 1 report) (nth 2 report) (nth 3 report) 0 follows)))
          (goto-char end)
          (unless (and follows first)
            (setq first error))
          (when follows
            (setf (nth 3 first) (1+ (nth 3 first))))
          (push error errors)
          (setq previous (cons (- end (length (match-string 0))) report)))))
    (nreverse errors)))

(defun pide--is-next (previous report)
  "Whether no command starts between PREVIOUS and REPORT.
PREVIOUS is an error with its position."
  (save-excursion
    (goto-char (car previous))
    (let ((start (nth 2 previous)) (found 'none))
      (while (eq found 'none)
        (if (and (search-forward "\5\6command\6offset=" nil t) (looking-at "[0-9]+"))
            (let ((place (pide--number 0)))
              (cond ((>= place (nth 1 report)) (setq found t))
                    ((> place start) (setq found nil))))
          (setq found t)))
      found)))

(defun pide--is-refused (previous)
  "Whether PREVIOUS says that its command changed nothing.
It is an error with its position.  A proof that is wrong closes its goal."
  (or (member (nth 4 previous) '("not allowed here" "malformed command"))
      (let ((start (nth 2 previous)))
        (save-excursion
          (not (seq-find (lambda (report)
                           (and (equal (car report) "command")
                                (equal (pide--property "name" report) "by")))
                         (pide--reports start start)))))))

(defun pide--render (is-pending)
  "Show what is reported of what windows show.
Where something IS-PENDING it is shaded from the end of the reports on."
  (save-restriction
    (widen)
    (pide--clear)
    (dolist (range (pide--visible))
      (dolist (report (pide--reports (pide--command-at (pide--place (1+ (car range))))
                                     (pide--place (1+ (cdr range)))))
        (apply #'pide--show-report report)))
    (when is-pending
      (pide--shade (pide--reports-end))))
  (unless (display-graphic-p)
    (dolist (window (get-buffer-window-list nil nil t))
      (unless (car (window-margins window))
        (set-window-margins window 1 (cdr (window-margins window))))))
  (pide--show-missing)
  (pide--show-trouble (current-buffer)))

;;;; What is missing at the end: the engine reports no error where a theory stops in the middle

(defun pide--is-whole ()
  "Whether all of the text is checked, as the reports tell it."
  (and pide--told-whole (null pide--told-front)))

(defun pide--ending-problem ()
  "What is missing at the end of the current buffer, or nil.
It is known where all of it is checked."
  (when pide--told-whole
    (with-current-buffer pide--markup
      (goto-char (point-max))
      (let ((depth 0) (answer 'open) command)
        (while (and (eq answer 'open) (setq command (pide--command-before)))
          (let ((word (pide--property "name" command)))
            (when (pide--is-accepted command word)
              (setq answer
                    (pcase word
                      ("end" nil)
                      ((or "theory" "axiom" "load") 'theory)
                      ((or "by" "qed") (setq depth (1+ depth)) 'open)
                      ((or "have" "show") (setq depth (1- depth)) 'open)
                      ("lemma" (if (> depth 0) 'theory (pide--defined-behind (nth 1 command))))
                      (_ 'open))))))
        (cond ((stringp answer) (format "the proof of %s is missing" answer))
              ((eq answer 'theory) "the theory isn't ended")
              ((and answer (not (pide--has-report "error"))) "the theory isn't ended"))))))

(defun pide--has-report (kind)
  "Whether a report of this KIND stands in the current buffer."
  (goto-char (point-min))
  (search-forward (format "\5\6%s\6" kind) nil t))

(defun pide--command-before ()
  "The last command that is reported before point, to which point goes."
  (when (search-backward "\5\6command\6" nil t)
    (looking-at pide--report)
    (pide--matched-report)))

(defun pide--is-accepted (command word)
  "Whether COMMAND, whose word is WORD, has changed the theory."
  (save-excursion
    (let ((error (assoc "error" (pide--reports (nth 1 command) (nth 1 command)))))
      (or (not error)
          (and (equal word "by")
               (not (member (nth 3 error) '("not allowed here" "malformed command"))))))))

(defun pide--defined-behind (place)
  "The name that is defined behind PLACE."
  (save-excursion
    (pide--seek place)
    (search-forward "\5\6def\6" nil t)
    (goto-char (match-beginning 0))
    (looking-at pide--report)
    (pide--property "name" (pide--matched-report))))

(defun pide--end-position ()
  "Where what is written in the current buffer ends."
  (save-excursion
    (save-restriction
      (widen)
      (goto-char (point-max))
      (skip-chars-backward " \t\r\n")
      (point))))

(defun pide--show-missing ()
  "Tell at the end of the current buffer what is missing there.
It is shown softly while point is in the last line or behind it."
  (save-restriction
    (widen)
    (remove-overlays (point-min) (point-max) 'pide-kind 'missing)
    (when-let ((text (and (pide--is-whole) pide--missing)))
      (let* ((end (pide--end-position))
             (line (save-excursion (goto-char end) (line-beginning-position)))
             (is-typed (and (eq (current-buffer) (window-buffer (selected-window)))
                            (>= (window-point (selected-window)) line))))
        (pide--overlay (max (point-min) (1- end)) end
                       'pide-kind 'missing
                       'face (unless is-typed 'pide-error)
                       'help-echo text
                       'after-string (propertize (concat "  " text) 'face 'shadow 'cursor t))))))

(defun pide--take-assignment (rows)
  "Shade what is to be checked of the nodes of which ROWS, a chunk, tell."
  (dolist (buffer (pide--buffers))
    (goto-char (car rows))
    (when (search-forward (pide--part (buffer-local-value 'pide--node buffer)) (cdr rows) t)
      (with-current-buffer buffer
        (pide--shade pide--anew)))))

(defun pide--take-markup (chunks)
  "Show the markup of a node, told by CHUNKS of the current buffer."
  (let ((replies (current-buffer))
        (buffer (pide--buffer-of (pide--chunk (nth 2 chunks))))
        (reports (nth 3 chunks))
        (is-pending (< (car (nth 4 chunks)) (cdr (nth 4 chunks)))))
    (when buffer
      (with-current-buffer buffer
        (with-current-buffer pide--markup
          (erase-buffer)
          (insert-buffer-substring-no-properties replies (car reports) (cdr reports)))
        (setq pide--told-size (buffer-size pide--shadow)
              pide--told-front pide--front
              pide--told-back pide--back
              pide--told-whole (and (not is-pending) (pide--was-all-wanted))
              pide--errors (pide--read-errors)
              pide--missing (pide--ending-problem))
        (pide--render is-pending)
        (pide--tell-flymake)
        (pide--show-state)))))

;;;; The state at point, and suggestions

(defun pide--at-point ()
  "What is reported of the command at point or before it, of the whole command."
  (let ((start (pide--command-at (pide--place (point)))))
    (pide--reports start start)))

(defun pide--state-text ()
  "What the window of the state shows."
  (let ((reports (pide--at-point)))
    (concat
     (mapconcat (lambda (report)
                 (pcase (car report)
                   ("error" (propertize
                             (format "error: %s\n" (pide--explained (nth 3 report) (nth 1 report)))
                             'face 'pide-error))
                   ("state" (concat (nth 3 report) "\n"))
                   ("suggest"
                    (concat "\n" (nth 3 report) "\n("
                            (substitute-command-keys
                             "\\<pide-mode-map>\\[pide-insert-suggestion] puts it in)\n")))
                   (_ "")))
               reports "")
     (if (and pide--missing (pide--is-whole) (>= (point) (pide--end-position)))
         (concat pide--missing "\n")
       ""))))

(defun pide--show-state ()
  "Write the state at point where its window shows it."
  (when-let ((window (get-buffer-window "*pide-state*" t)))
    (when (eq (current-buffer) (window-buffer (selected-window)))
      (let ((text (save-excursion
                    (goto-char (window-point (selected-window)))
                    (pide--state-text))))
        (with-current-buffer (window-buffer window)
          (let ((inhibit-read-only t))
            (unless (equal text (buffer-string))
              (erase-buffer)
              (insert text)
              (goto-char (point-min)))))))))

(defun pide-show-state ()
  "Show the window of the state at point."
  (interactive)
  (with-current-buffer (get-buffer-create "*pide-state*")
    (unless (derived-mode-p 'special-mode) (special-mode)))
  (display-buffer "*pide-state*"
                  '(display-buffer-in-side-window (side . right) (window-width . 0.4)))
  (when pide--node
    (pide--show-state)))

(defun pide--after-command ()
  "Follow point, and note what has become visible."
  (when (and pide-shows-state (not pide--has-shown-state) (not noninteractive))
    (setq pide--has-shown-state t)
    (pide-show-state))
  (pide--show-state)
  (when pide--missing
    (pide--show-missing))
  (unless (equal pide--seen (pide--perspective (pide--visible)))
    (pide--schedule)))

(defun pide-insert-suggestion ()
  "Put the proof that is suggested for the command at point in behind it."
  (interactive)
  (let ((suggestion (assoc "suggest" (pide--at-point))))
    (unless suggestion
      (user-error "No proof is suggested here"))
    (goto-char (pide--position (nth 2 suggestion) t))
    (insert "\n  " (nth 3 suggestion))
    (unless (looking-at "[ \t\n\r]\\|\\'")
      (insert "\n"))))

(defun pide--shown-errors ()
  "The errors that are reported, in order: those that follow from no other, or all."
  (seq-filter (lambda (error) (or pide-shows-all-errors (not (nth 4 error)))) pide--errors))

(defun pide--go-to-error (count &optional reset)
  "Go COUNT errors on from point, back where it is negative, and round at the ends.
With RESET they are counted from the beginning of the buffer."
  (let* ((errors (pide--shown-errors))
         (place (if reset -1 (pide--place (point))))
         (index (if (< count 0)
                    (seq-count (lambda (error) (< (car error) place)) errors)
                  (1- (seq-count (lambda (error) (<= (car error) place)) errors)))))
    (unless errors
      (user-error (if pide--missing "No error but at the end: %s" "No error")
                  pide--missing))
    (let* ((next (+ index count)) (error (nth (mod next (length errors)) errors)))
      (goto-char (pide--position (car error)))
      (message "%s%s" (pide--explained (nth 2 error) (car error))
               (if (< -1 next (length errors)) "" " (round the buffer's end)")))))

(defun pide-next-error ()
  "Go to the next error behind point, or round to the first, and tell it."
  (interactive)
  (pide--go-to-error 1))

(defun pide-previous-error ()
  "Go to the last error before point, or round to the last of all, and tell it."
  (interactive)
  (pide--go-to-error -1))

;;;; Commands, found by their words, whether the program runs or not

(defun pide--command-words ()
  "The words that begin commands, aliases of all theories too."
  (append pide--commands
          (apply #'append (mapcar (lambda (buffer) (with-current-buffer buffer (pide--aliases)))
                                  (pide--buffers)))))

(defun pide--aliases ()
  "The aliases of commands that the current buffer's header gives."
  (let ((words (cdr (member "keywords" (pide--header)))) names)
    (while words
      (push (car words) names)
      (setq words (nthcdr 3 words)))
    names))

(defun pide--is-in-text ()
  "Whether point is outside of comments and strings."
  (not (nth 8 (syntax-ppss))))

(defun pide--begins-command (word header-end)
  "Whether WORD, at point, begins a command.
Aliases do so behind HEADER-END alone."
  (and (pide--is-in-text)
       (or (member word pide--commands) (>= (point) header-end))))

(defun pide--search-command (search)
  "Go on by SEARCH to the next word of a command.
Where it begins is returned, or nil where there is none."
  (let ((words (regexp-opt (pide--command-words) 'symbols))
        (header-end (or (car (pide--read-header)) 0))
        (case-fold-search nil)
        found)
    (while (and (not found) (funcall search words nil t))
      (let ((begin (match-beginning 0)) (place (point)))
        (goto-char begin)
        (when (save-match-data (pide--begins-command (match-string-no-properties 0) header-end))
          (setq found begin))
        (goto-char place)))
    found))

(defun pide--command-end ()
  "Where the command ends that begins before point."
  (save-excursion
    (goto-char (if (pide--search-command #'re-search-forward) (match-beginning 0) (point-max)))
    (forward-comment (- (buffer-size)))
    (point)))

(defun pide-next-command ()
  "Go to the end of the next command that ends behind point, or round to the first."
  (interactive)
  (let ((place (point)) (end 0))
    (goto-char (point-min))
    (when (pide--search-command #'re-search-forward)
      (let ((first (pide--command-end)))
        (setq end first)
        (goto-char place)
        (when (pide--search-command #'re-search-backward)
          (goto-char (match-end 0))
          (setq end (pide--command-end)))
        (while (and (<= end place) (pide--search-command #'re-search-forward))
          (setq end (pide--command-end)))
        (when (<= end place)
          (setq end first)
          (message "Round to the first command"))))
    (goto-char (if (= end 0) place end))))

(defun pide-previous-command ()
  "Go to the end of the last command that ends before point, or round to the last."
  (interactive)
  (let ((place (point)) (end (point-max)))
    (while (and (>= end place) (pide--search-command #'re-search-backward))
      (let ((begin (point)))
        (goto-char (match-end 0))
        (setq end (pide--command-end))
        (goto-char begin)))
    (when (>= end place)
      (goto-char (point-max))
      (forward-comment (- (buffer-size)))
      (setq end (point))
      (message "Round to the last command"))
    (goto-char end)))

;;;; Other tools of Emacs: flymake, xref

(defun pide--flymake (tell &rest _)
  "Have TELL called with the errors of the buffer whenever they are known anew."
  (setq pide--flymake tell)
  (pide--tell-flymake))

(defun pide--tell-flymake ()
  "Tell `flymake-mode' the errors that are known."
  (when (and pide--flymake (bound-and-true-p flymake-mode))
    (funcall pide--flymake (append (mapcar #'pide--diagnostic (pide--shown-errors))
                                   (pide--missing-diagnostic))
             :region (cons (point-min) (point-max)))))

(defun pide--diagnostic (error)
  "The diagnostic of flymake for ERROR."
  (flymake-make-diagnostic (current-buffer)
                           (pide--position (car error))
                           (pide--position (nth 1 error) t)
                           :error
                           (pide--explained (nth 2 error) (car error))))

(defun pide--missing-diagnostic ()
  "What is missing at the end, as a list of diagnostics."
  (when (and pide--missing (pide--is-whole))
    (let ((end (pide--end-position)))
      (list (flymake-make-diagnostic (current-buffer) (max (point-min) (1- end)) end
                                     :note pide--missing)))))

(defun pide--xref-backend ()
  "The backend of `xref' for theories."
  'pide)

(cl-defmethod xref-backend-identifier-at-point ((_backend (eql pide)))
  (let ((name (thing-at-point 'symbol t)))
    (and name (propertize name 'pide-place (pide--place (point))))))

(cl-defmethod xref-backend-identifier-completion-table ((_backend (eql pide)))
  (let (names)
    (save-excursion
      (goto-char (point-min))
      (while (re-search-forward pide--named nil t)
        (push (match-string-no-properties 1) names)))
    names))

(cl-defmethod xref-backend-definitions ((_backend (eql pide)) name)
  (let ((local (pide--local-definition name)))
    (if local
        (list local)
      (delq nil (cons (pide--definition-in (current-buffer) name)
                      (mapcar (lambda (buffer) (pide--definition-in buffer name))
                              (remq (current-buffer) (pide--buffers))))))))

(defun pide--definition-in (buffer name)
  "Where BUFFER defines the theory or the fact NAME, as `xref' has it; or nil."
  (with-current-buffer buffer
    (save-excursion
      (save-restriction
        (widen)
        (goto-char (point-min))
        (let ((short (car (last (split-string name "\\.")))) (case-fold-search nil) found)
          (while (and (not found) (re-search-forward pide--named nil t))
            (when (equal (match-string-no-properties 1) short)
              (goto-char (match-beginning 1))
              (when (pide--is-in-text)
                (setq found (point)))))
          (when found
            (xref-make (format "%s in %s" short (or pide--node (buffer-name)))
                       (xref-make-buffer-location buffer found))))))))

(defun pide--local-definition (name)
  "Where NAME is given in the proof around it, as `xref' has it; or nil."
  (let* ((place (get-text-property 0 'pide-place name))
         (def (and place
                   (seq-find (lambda (report)
                               (and (equal (car report) "def")
                                    (equal (pide--property "name" report) name)
                                    (not (pide--property "theory" report))))
                             (nreverse (pide--reports 0 place))))))
    (when def
      (xref-make (format "%s, which is local" name)
                 (xref-make-buffer-location (current-buffer) (pide--position (nth 1 def)))))))

(defun pide-check-whole ()
  "Have the whole buffer checked, or again what is visible alone."
  (interactive)
  (setq pide--is-required (not pide--is-required))
  (pide--schedule)
  (message (if pide--is-required "The whole theory is checked" "What is visible is checked")))

;;;; The mode

(defvar pide-mode-syntax-table
  (let ((table (make-syntax-table)))
    (modify-syntax-entry ?\( "()1n" table)
    (modify-syntax-entry ?\) ")(4n" table)
    (modify-syntax-entry ?* ". 23n" table)
    (modify-syntax-entry ?' "_" table)
    (modify-syntax-entry ?_ "_" table)
    table)
  "Comments, which nest, strings and names.")

(defvar pide-mode-map
  (let ((map (make-sparse-keymap)))
    (define-key map (kbd "C-c C-s") #'pide-insert-suggestion)
    (define-key map (kbd "C-c C-n") #'pide-next-command)
    (define-key map (kbd "C-c C-u") #'pide-previous-command)
    (define-key map (kbd "C-c C-p") #'pide-show-state)
    (define-key map (kbd "C-c C-b") #'pide-check-whole)
    (define-key map (kbd "C-c C-w") #'pide-check-whole)
    (define-key map (kbd "C-c C-r") #'pide-restart)
    map)
  "The keys of theories.")

;;;###autoload
(define-derived-mode pide-mode prog-mode "Theory"
  "A theory, checked as one types.

\\{pide-mode-map}"
  (setq-local comment-start "(* "
              comment-end " *)"
              comment-start-skip "(\\*+[ \t]*"
              indent-line-function #'indent-relative
              next-error-function #'pide--go-to-error
              font-lock-defaults `(((,(regexp-opt pide--commands 'symbols) . font-lock-keyword-face)
                                    (,(regexp-opt '("imports" "keywords" "begin") 'symbols)
                                     . font-lock-builtin-face))))
  (add-hook 'flymake-diagnostic-functions #'pide--flymake nil t)
  (add-hook 'xref-backend-functions #'pide--xref-backend nil t)
  (pide--attach))

;;;###autoload
(add-to-list 'auto-mode-alist '("\\.thy\\'" . pide-mode))

(provide 'pide-mode)
;;; pide-mode.el ends here
