;;; esterel-mode.el --- Pure Esterel for cec  -*- lexical-binding: t; -*-

;; Colours, indentation, comments, and compilation by cec-explain, whose lines Emacs' compilation mode takes.
;;
;;   (add-to-list 'load-path "/usr/local/share/cec/emacs")
;;   (require 'esterel-mode)
;;
;; C-c C-c explains the file; M-g n goes from line to line of what it says. M-x eglot starts the language server, for definitions,
;; renamings and hovers.

;;; Code:

(require 'compile)

(defgroup esterel nil "Pure Esterel." :group 'languages)

(defcustom esterel-explain "cec-explain" "The command that explains a file." :type 'string)

(defcustom esterel-offset 2 "How far a statement stands in another." :type 'integer)

(defvar esterel-mode-syntax-table
  (let ((table (make-syntax-table)))
    (modify-syntax-entry ?_ "w" table)
    ;; % to the end of the line, and as the other style %{ to }%.
    (modify-syntax-entry ?% "< 14" table)
    (modify-syntax-entry ?\n ">" table)
    (modify-syntax-entry ?\{ ". 2b" table)
    (modify-syntax-entry ?\} ". 3b" table)
    table)
  "The characters of a source.")

(defconst esterel-words
  '("abort" "await" "case" "do" "each" "else" "emit" "end" "every" "exit" "halt" "handle" "immediate" "in" "loop"
    "module" "nothing" "pause" "positive" "present" "repeat" "run" "suspend" "sustain" "then" "times" "trap" "weak"
    "when")
  "The words of statements.")

(defconst esterel-font-lock
  `((,(regexp-opt esterel-words 'words) . font-lock-keyword-face)
    ("\\<\\(?:input\\|output\\|inputoutput\\|relation\\|signal\\)\\>" . font-lock-type-face)
    ("\\<\\(?:and\\|or\\|not\\)\\>" . font-lock-builtin-face)
    ("\\<tick\\>" . font-lock-constant-face)
    ("\\<\\(?:module\\|run\\)[ \t]+\\(\\w+\\)" 1 font-lock-function-name-face)
    ("\\<\\(?:trap\\|exit\\|handle\\)[ \t]+\\(\\w+\\)" 1 font-lock-constant-face))
  "Colours.")

;; Indentation: the statements that are open where a line begins, each with the column of the line that opened it.

(defun esterel-tokens ()
  "The tokens of the buffer as a vector of pairs of a text and a place."
  (let (found)
    (save-excursion
      (goto-char (point-min))
      (while (re-search-forward "[A-Za-z][A-Za-z0-9_]*\\|[0-9]+\\|||\\|[][;(),/:#.]" nil t)
        (let ((text (match-string-no-properties 0)) (start (match-beginning 0)))
          (unless (nth 4 (save-excursion (syntax-ppss start)))
            (push (cons text start) found)))))
    (vconcat (nreverse found))))

(defun esterel-token (tokens number)
  "The text of a token; nil where there is none of this NUMBER."
  (and (>= number 0) (< number (length tokens)) (car (aref tokens number))))

(defun esterel-behind-bracket (tokens number)
  "The number of the token behind the bracket that opens at NUMBER."
  (let ((depth 0) (done nil))
    (while (and (not done) (< number (length tokens)))
      (pcase (esterel-token tokens number)
        ("[" (setq depth (1+ depth)))
        ("]" (setq depth (1- depth))))
      (setq number (1+ number) done (= depth 0)))
    number))

(defun esterel-behind-delay (tokens number)
  "The number of the token behind the delay that begins at NUMBER."
  (when (member (esterel-token tokens number) '("immediate"))
    (setq number (1+ number)))
  (when (string-match-p "\\`[0-9]" (or (esterel-token tokens number) ""))
    (setq number (1+ number)))
  (if (equal (esterel-token tokens number) "[")
      (esterel-behind-bracket tokens number)
    (1+ number)))

(defconst esterel-before-test
  '("when" "await" "present" "every" "each" "case" "immediate" "and" "or" "not" "(" "[")
  "What stands before a bracket of a test; a number does too.")

(defun esterel-drop-case (opened)
  "OPENED without a case at its head."
  (if (eq (caar opened) 'case) (cdr opened) opened))

(defun esterel-open-statements (place)
  "What is open at PLACE, the innermost first: pairs of a kind and a column.
The kind is `case' or `statement', the column that of its first line."
  (let ((tokens (esterel-tokens)) (number 0) opened)
    (while (and (< number (length tokens)) (< (cdr (aref tokens number)) place))
      (let* ((before (esterel-token tokens (1- number)))
             (next (1+ number))
             (column (save-excursion (goto-char (cdr (aref tokens number))) (current-indentation)))
             (opens (lambda (kind) (push (cons kind column) opened)))
             (closes (lambda () (setq opened (cdr (esterel-drop-case opened)))))
             (goes-on (lambda () (or (equal (esterel-token tokens next) "case")
                                     (equal (esterel-token tokens (esterel-behind-delay tokens next)) "do")))))
        (pcase (esterel-token tokens number)
          ("module" (setq opened nil))
          ("end" (funcall closes)
           (when (member (esterel-token tokens next)
                         '("await" "present" "loop" "every" "repeat" "abort" "trap" "signal" "module"))
             (setq next (1+ next))))
          ((or "each" "]") (funcall closes))
          ("case" (setq opened (esterel-drop-case opened)) (funcall opens 'case))
          ("else" (setq opened (esterel-drop-case opened)))
          ((or "loop" "abort" "suspend" "trap" "present" "every" "repeat" "signal") (funcall opens 'statement))
          ("[" (if (or (equal (esterel-token tokens next) "signal")
                       (member before esterel-before-test)
                       (string-match-p "\\`[0-9]" (or before "")))
                   (setq next (esterel-behind-bracket tokens number))
                 (funcall opens 'statement)))
          ("await" (when (funcall goes-on) (funcall opens 'statement)))
          ("when" (unless (funcall goes-on)
                    (funcall closes)
                    (setq next (esterel-behind-delay tokens next)))))
        (setq number next)))
    opened))

(defun esterel-indent-of-line ()
  "The column of this line."
  (save-excursion
    (back-to-indentation)
    (let ((opened (esterel-open-statements (point))))
      (cond ((null opened) 0)
            ((looking-at "case\\_>") (+ (cdar opened) (if (eq (caar opened) 'case) 0 esterel-offset)))
            ((looking-at "||") (cdar opened))
            ((looking-at "\\(?:\\(?:end\\|each\\|when\\|handle\\|else\\)\\_>\\|\\]\\)")
             (or (cdar (esterel-drop-case opened)) 0))
            (t (+ (cdar opened) esterel-offset))))))

(defun esterel-indent-line ()
  "Indents this line."
  (interactive)
  (let ((column (esterel-indent-of-line)))
    (if (<= (current-column) (current-indentation))
        (indent-line-to column)
      (save-excursion (indent-line-to column)))))

(defun esterel-explain ()
  "Explains why cec refuses this file."
  (interactive)
  (compile (concat esterel-explain " " (shell-quote-argument (buffer-file-name)))))

(defvar esterel-mode-map
  (let ((map (make-sparse-keymap)))
    (define-key map (kbd "C-c C-c") #'esterel-explain)
    map)
  "Keys.")

;;;###autoload
(define-derived-mode esterel-mode prog-mode "Esterel"
  "Sources of Pure Esterel."
  (setq-local indent-tabs-mode nil)
  (setq-local comment-start "% ")
  (setq-local comment-end "")
  (setq-local comment-start-skip "%+[ \t]*")
  (setq-local indent-line-function #'esterel-indent-line)
  (setq-local font-lock-defaults '(esterel-font-lock)))

;;;###autoload
(add-to-list 'auto-mode-alist '("\\.strl\\'" . esterel-mode))

;; Eglot (part of Emacs since 29) knows the server once it is loaded.
(defvar eglot-server-programs)
(with-eval-after-load 'eglot
  (add-to-list 'eglot-server-programs '(esterel-mode "cec-language_server")))

(provide 'esterel-mode)

;;; esterel-mode.el ends here
